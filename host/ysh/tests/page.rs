//! The page of `ysh holdup` in a real browser: nothing stands outside it, at 1,200 pixels and on paper. Where there is no chromium the
//! tests say so and pass.

mod common;

use std::fs;
use std::path::Path;
use std::process::Command;

use common::browser::{browse, chromium, whole};
use common::{folder, ysh, STRATEGY};

fn page(folder: &Path, arguments: &[&str]) -> String {
    let html = folder.join("page.html");
    let files = folder.join("files");
    let all = [&["holdup", files.to_str().unwrap(), "--html", html.to_str().unwrap()], arguments].concat();
    let (status, _, said) = ysh(&all);
    assert!(status != 2, "{said}");
    fs::read_to_string(html).unwrap()
}

const SUPPLY: [&str; 10] =
    ["--power", "2.5W", "--drop-voltage", "12V", "--lowest-voltage", "6V", "--tolerance", "20%", "--age", "20%"];

#[test]
fn a_few_files_fit_on_the_page() {
    let Some(program) = chromium() else { return };
    let folder = folder("page-few");
    fs::create_dir(folder.join("files")).unwrap();
    let put = |name: &str, back: usize| {
        let text = STRATEGY.replace("14]", &format!("{back}]"));
        fs::write(folder.join("files").join(name), text).unwrap();
    };
    put("a.json", 3);
    put("b & <c> \"d\".json", 60);
    put(&format!("{}.json", "unbroken".repeat(25)), 4000);
    put("wide Ｗｉｄｅ letters Ｗｉｄｅ.json", 600);
    let flash = ["--page", "256", "--page-time", "0.7ms", "--have", "11ms"];
    whole(&program, &folder, &page(&folder, &[&flash[..], &SUPPLY].concat()));
    whole(&program, &folder, &page(&folder, &["--rate", "1.5MB/s"]));
    whole(&program, &folder, &page(&folder, &["--rate", "1.5MB/s", "--have", "1ns", "--dumps", "1000000"]));
}

#[test]
fn a_thousand_files_and_long_rules_fit_too() {
    let Some(program) = chromium() else { return };
    let folder = folder("page-many");
    fs::create_dir(folder.join("files")).unwrap();
    let sum = (0..27).fold("1".to_owned(), |sum, n| format!("{{\"add\": [{{\"prev\": [\"fast\", {n}]}}, {sum}]}}"));
    let deep = STRATEGY.replace("\"fast\", \"slow\"]", &format!("\"fast\", {sum}]"));
    for n in 0..1000 {
        let text = if n % 100 == 7 { deep.clone() } else { STRATEGY.replace("14]", &format!("{}]", n * 4)) };
        fs::write(folder.join("files").join(format!("client-{n:04}.json")), text).unwrap();
    }
    let flash = ["--page", "256", "--page-time", "0.7ms", "--have", "11ms"];
    whole(&program, &folder, &page(&folder, &[&flash[..], &SUPPLY].concat()));
}

/// On paper every file is named and every formula stands, as far as the text of the PDF tells.
#[test]
fn printed_it_holds_everything() {
    let Some(program) = chromium() else { return };
    let folder = folder("page-paper");
    fs::create_dir(folder.join("files")).unwrap();
    for n in 0..60 {
        let text = STRATEGY.replace("14]", &format!("{}]", 2 * n));
        fs::write(folder.join("files").join(format!("client-{n:02}.json")), text).unwrap();
    }
    page(&folder, &[&["--page", "256", "--page-time", "0.7ms", "--have", "11ms"][..], &SUPPLY].concat());
    let pdf = folder.join("page.pdf");
    let url = format!("file://{}", folder.join("page.html").display());
    browse(&program, &folder, &["--no-pdf-header-footer", &format!("--print-to-pdf={}", pdf.display()), &url]);
    assert!(fs::read(&pdf).unwrap().starts_with(b"%PDF"));
    let Ok(read) = Command::new("pdftotext").args(["-layout", pdf.to_str().unwrap(), "-"]).output() else {
        eprintln!("no pdftotext here: the paper was not read");
        return;
    };
    let text = String::from_utf8_lossy(&read.stdout).split_whitespace().collect::<String>();
    for n in 0..60 {
        assert!(text.contains(&format!("client-{n:02}.json")), "client {n}");
    }
    for part in ["256+D·8·(7+K)", "programs·timeapage", "Checkedby", "Signature", "NO"] {
        assert!(text.contains(part), "{part}");
    }
}
