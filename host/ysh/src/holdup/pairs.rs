//! A strategy and the table that was compiled from it are one client: they are told by their names and by the table's bytes.

use super::report::Client;

/// The clients of a box with such pairs counted once, and what is to be said of them.
pub fn once(clients: Vec<Client>) -> (Vec<Client>, Vec<String>) {
    let mut said = Vec::new();
    let mut dropped = vec![false; clients.len()];
    for (at, table) in clients.iter().enumerate().filter(|(_, client)| client.is_table) {
        let same = |client: &Client| !client.is_table && client.table == table.table;
        let own = clients.iter().position(|client| same(client) && own_name(client, table));
        if let Some(strategy) = own {
            // A table with settings is what the box runs; without them only the strategy knows the sizing.
            let (kept, left) = if table.unknown_sizing { (strategy, at) } else { (at, strategy) };
            dropped[left] = true;
            let (kept, left) = (&clients[kept].file, &clients[left].file);
            said.push(format!("{left}: left out: {kept} is the same client, and is counted once"));
        } else if let Some(strategy) = clients.iter().find(|client| same(client)) {
            said.push(format!(
                "{}: counted beside {}, which has the same rules by another name",
                table.file, strategy.file
            ));
        }
    }
    let kept = clients.into_iter().zip(dropped).filter(|(_, dropped)| !dropped).map(|(client, _)| client);
    (kept.collect(), said)
}

/// Whether a table stands beside a strategy, by the same name but for its ending.
fn own_name(strategy: &Client, table: &Client) -> bool {
    strategy.path.with_extension("") == table.path.with_extension("")
}
