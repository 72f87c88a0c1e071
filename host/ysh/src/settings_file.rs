//! The settings that stand beside a table, as JSON: what each slot is called, and every setting by name.

use std::path::{Path, PathBuf};

use serde::{Deserialize, Serialize};
use yshturpa::{EntryOrder, Settings};

use crate::compile::{sizing_of, slippage_of, Rules};
use crate::files::{name_of, read_most, text_of};
use crate::holdup::sheet::digest;
use crate::problem::Problem;
use crate::strategy::spec::{Sizing, Slippage};
use crate::strategy::{in_words, Fault};

#[derive(Clone, Debug, PartialEq, Serialize, Deserialize)]
#[serde(deny_unknown_fields)]
pub struct SettingsFile {
    /// Slot 0 first.
    pub slots: Vec<String>,
    pub depth: usize,
    pub capital: f64,
    pub warmup: u64,
    pub delay: u64,
    pub sizing: Sizing,
    pub taker_bps: f64,
    pub slippage: Slippage,
    pub funding: bool,
    pub stop_loss_pct: Option<f64>,
    pub trailing_stop_pct: Option<f64>,
    pub take_profit_pct: Option<f64>,
    pub max_leverage: Option<f64>,
    pub max_position_pct: Option<f64>,
    pub liquidation: bool,
    pub partial_fills: bool,
    pub max_participation: f64,
    #[serde(with = "Entry")]
    pub entry_order: EntryOrder,
    pub maker_bps: f64,
    /// 0: any quantity.
    pub lot: f64,
    /// The SHA-256 of the table that they were made with; files of before have none.
    #[serde(default, skip_serializing_if = "Option::is_none")]
    pub table_sha256: Option<String>,
}

/// How an entry order is written.
#[derive(Serialize, Deserialize)]
#[serde(remote = "EntryOrder", tag = "type", rename_all = "snake_case")]
enum Entry {
    Market,
    Limit { level_pct: f64 },
    Stop { level_pct: f64 },
    StopLimit { stop_pct: f64, limit_pct: f64 },
}

impl SettingsFile {
    /// The file that stands beside a table: the table's name and `.settings.json`.
    pub fn beside(table: &Path) -> PathBuf {
        let mut name = table.as_os_str().to_owned();
        name.push(".settings.json");
        name.into()
    }

    pub fn new(rules: &Rules, sizing: Sizing, slippage: Slippage, settings: &Settings) -> SettingsFile {
        SettingsFile {
            slots: rules.names.clone(),
            depth: settings.depth,
            capital: settings.capital,
            warmup: settings.warmup,
            delay: settings.delay,
            sizing,
            taker_bps: settings.taker_bps,
            slippage,
            funding: settings.funding,
            stop_loss_pct: settings.stop_loss_pct,
            trailing_stop_pct: settings.trailing_stop_pct,
            take_profit_pct: settings.take_profit_pct,
            max_leverage: settings.max_leverage,
            max_position_pct: settings.max_position_pct,
            liquidation: settings.liquidation,
            partial_fills: settings.partial_fills,
            max_participation: settings.max_participation,
            entry_order: settings.entry_order,
            maker_bps: settings.maker_bps,
            lot: settings.lot,
            table_sha256: Some(digest(&rules.table)),
        }
    }

    /// The settings as the library's record: what `new` was made of.
    pub fn settings(&self) -> Result<Settings, Fault> {
        let new = Settings::new(self.slots.len(), self.depth, self.capital, sizing_of(self.sizing));
        Ok(Settings {
            warmup: self.warmup,
            delay: self.delay,
            taker_bps: self.taker_bps,
            slippage: slippage_of(self.slippage)?,
            funding: self.funding,
            stop_loss_pct: self.stop_loss_pct,
            trailing_stop_pct: self.trailing_stop_pct,
            take_profit_pct: self.take_profit_pct,
            max_leverage: self.max_leverage,
            max_position_pct: self.max_position_pct,
            liquidation: self.liquidation,
            partial_fills: self.partial_fills,
            max_participation: self.max_participation,
            entry_order: self.entry_order,
            maker_bps: self.maker_bps,
            lot: self.lot,
            ..new
        })
    }

    pub fn lookback(&self) -> u64 {
        match self.sizing {
            Sizing::VolTarget { lookback, .. } => lookback.into(),
            _ => 0,
        }
    }

    pub fn text(&self) -> String {
        serde_json::to_string_pretty(self).expect("settings are JSON") + "\n"
    }

    /// Reads the file beside a table, and its text; none where there is no such file.
    pub fn read(table: &Path) -> Result<Option<(SettingsFile, String)>, Problem> {
        let path = SettingsFile::beside(table);
        let name = name_of(&path);
        let text = match read_most(&path) {
            Ok(bytes) => text_of(&name, bytes)?,
            Err(error) if error.kind() == std::io::ErrorKind::NotFound => return Ok(None),
            Err(error) => return Err(Problem::io(name, "read", &error)),
        };
        let read = serde_json::from_str(&text).map_err(|error| {
            let place = format!("line {} column {}", error.line(), error.column());
            let said = error.to_string();
            Problem::input(&name, &place, in_words(said.strip_suffix(&format!(" at {place}")).unwrap_or(&said)))
        })?;
        Ok(Some((read, text)))
    }
}
