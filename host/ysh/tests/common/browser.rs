//! A page in a real browser, and what is cut off in it.

use std::fs;
use std::path::{Path, PathBuf};
use std::process::Command;

/// Writes into the page what stands outside its window, or is wider than the box that it stands in.
const MEASURE: &str = r#"<script>
window.addEventListener('load', () => {
  const cut = [];
  const width = document.documentElement.clientWidth;
  for (const it of document.querySelectorAll('body, body *')) {
    const box = it.getBoundingClientRect();
    if (it.closest('defs, title') || box.width === 0) continue;
    const name = it.tagName + ' ' + (it.textContent || '').slice(0, 40);
    if (box.left < -0.5 || box.right > width + 0.5) cut.push('outside ' + name);
    const block = !(it instanceof SVGElement) && getComputedStyle(it).display !== 'inline';
    if (block && it.scrollWidth > it.clientWidth + 1) cut.push('wider ' + name);
    const svg = it.ownerSVGElement;
    if (svg) {
      const room = svg.getBoundingClientRect();
      if (box.left < room.left - 0.5 || box.right > room.right + 0.5 || box.top < room.top - 0.5 || box.bottom > room.bottom + 0.5)
        cut.push('outside the chart ' + name);
    }
  }
  if (document.documentElement.scrollWidth > width) cut.push('the page scrolls sideways');
  document.body.dataset.cut = cut.length + ' cut: ' + cut.slice(0, 5).join('; ');
});
</script>"#;

pub fn chromium() -> Option<PathBuf> {
    let path = std::env::var_os("PATH")?;
    let found = std::env::split_paths(&path).map(|folder| folder.join("chromium")).find(|program| program.is_file());
    if found.is_none() {
        eprintln!("no chromium here: the page was not opened");
    }
    found
}

pub fn browse(program: &Path, folder: &Path, arguments: &[&str]) -> String {
    let home = format!("--user-data-dir={}", folder.join("browser").display());
    let always = ["--headless", "--no-sandbox", "--disable-gpu", "--hide-scrollbars", &home];
    let ran = Command::new(program).args(always).args(arguments).output().expect("chromium runs");
    String::from_utf8_lossy(&ran.stdout).into_owned()
}

/// What is cut off in a page, in a window of so many pixels, as on a screen or as on paper.
fn cut(program: &Path, folder: &Path, page: &str, width: u32, paper: bool) -> String {
    let page = page.replace("</body>", &format!("{MEASURE}</body>"));
    let page = if paper { page.replace("@media print", "@media all") } else { page };
    let path = folder.join(format!("measured-{width}.html"));
    fs::write(&path, page).unwrap();
    let window = format!("--window-size={width},1600");
    let dom = browse(program, folder, &[&window, "--dump-dom", &format!("file://{}", path.display())]);
    let start = dom.find("data-cut=\"").map(|at| at + 10).unwrap_or_else(|| panic!("the page was not measured: {dom}"));
    dom[start..].split('"').next().unwrap().to_owned()
}

/// A4 less its margins is 182 mm wide: 688 pixels.
pub fn whole(program: &Path, folder: &Path, page: &str) {
    assert_eq!(cut(program, folder, page, 1200, false), "0 cut: ");
    assert_eq!(cut(program, folder, page, 688, true), "0 cut: ");
}
