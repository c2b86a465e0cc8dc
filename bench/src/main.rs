// Benchmarks: the proved code beside unverified programs of the same jobs. Run by bench/run.
mod dice;
mod files;
mod measure;
mod plain;
mod proved;
mod sqlite;
mod timing;

fn main() {
    timing::keep_memory();
    let asked: Vec<String> = std::env::args().skip(1).collect();
    let wanted = |name: &str| asked.is_empty() || asked.iter().any(|a| a == name);
    if wanted("judge") {
        measure::judge::run();
    }
    if wanted("shelves") {
        measure::shelves::run();
    }
    if wanted("catalogue") {
        measure::catalogue::run();
    }
}
