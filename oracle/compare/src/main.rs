//! The proved library against the judge, from the command line.

use std::{env, fs, process::ExitCode};

use compare::{
    arguments::{self, Settings, USAGE},
    report, roots, work,
};

fn main() -> ExitCode {
    let words: Vec<String> = env::args().skip(1).collect();
    match arguments::parse(words.iter().cloned()) {
        Ok(settings) => compare_all(&settings, &words),
        Err(message) => {
            eprintln!("compare: {message}\n\n{USAGE}");
            ExitCode::from(2)
        }
    }
}

fn compare_all(settings: &Settings, words: &[String]) -> ExitCode {
    println!("seed {}", settings.seed);
    let roots = roots::compare(proved::LIBRARY, settings.roots, settings.seed);
    let mut compared = work::compare(settings, proved::LIBRARY);
    compared.differences.extend(roots.differences);
    let report = report::report(settings, &compared, roots.compared);
    println!("\n{report}");
    for difference in &compared.differences {
        println!("DIFFERENCE {difference}\n");
    }
    if let Some(file) = &settings.record {
        let command = format!("compare {}", words.join(" "));
        let text = report::recorded(&command, &report, &compared.differences);
        if let Err(error) = fs::write(file, text) {
            eprintln!("compare: {} can't be written: {error}", file.display());
            return ExitCode::from(2);
        }
    }
    // those near every limit come first wherever random lists are compared
    let missing = if settings.is_random() {
        compared.tally.missing()
    } else {
        Vec::new()
    };
    for missing in &missing {
        println!("NOT MET {missing}");
    }
    let all_well = compared.differences.is_empty() && missing.is_empty();
    ExitCode::from(u8::from(!all_well))
}
