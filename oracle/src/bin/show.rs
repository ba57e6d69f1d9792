//! Shows what the judge says of a list in words: its sum, its derivative, and a table of both at some minutes.

use std::{env, process::ExitCode};

use oracle::{
    Answer, Complex, Refusal, algebra::values::sum_text, evaluate::list_value, judge, records, text,
};

const MINUTES: u32 = 10;

fn refusal_of<T>(answer: &Answer<T>) -> Option<&Refusal> {
    match answer {
        Answer::Rust(Err(refusal)) | Answer::Form(refusal) | Answer::Limit(refusal) => {
            Some(refusal)
        }
        Answer::Rust(Ok(_)) | Answer::Panic | Answer::TooLong => None,
    }
}

fn value(list: &[u8], minute: u32) -> f64 {
    list_value(list, Complex::from(f64::from(minute))).map_or(f64::NAN, |value| value.re)
}

fn show(list: &[u8]) -> Result<(), String> {
    let say = |what: &str, refusal: Option<&Refusal>| match refusal {
        Some(refusal) => format!("{what} is refused: {} at {}", refusal.number, refusal.place),
        None => format!("{what} has no answer"),
    };
    let read = judge::read(list);
    let refused = say("the list", refusal_of(&read));
    let sum = read.done().ok_or(refused)?;
    let derivative = judge::derivative(list);
    let refused = say("the derivative", refusal_of(&derivative));
    let speed = derivative.done().ok_or(refused)?;
    let words =
        |bytes: &[u8]| records::split(bytes).map_or_else(String::new, |list| text::words(&list));
    println!("list        {}", words(list));
    println!("sum         {}", sum_text(&sum.entries).unwrap_or_default());
    println!("derivative  {}", words(&speed));
    println!("\nminute     depth     speed");
    for minute in 0..=MINUTES {
        println!(
            "{minute:6} {:9.2} {:9.2}",
            value(list, minute),
            value(&speed, minute)
        );
    }
    Ok(())
}

fn main() -> ExitCode {
    let words: Vec<String> = env::args().skip(1).collect();
    match show(&text::list(&words.join(" "))) {
        Ok(()) => ExitCode::SUCCESS,
        Err(refusal) => {
            println!("{refusal}");
            ExitCode::FAILURE
        }
    }
}
