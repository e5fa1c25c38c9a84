//! Prints a call and what each side answers to it. Assumes nothing.
use crate::call::{Answer, Call};

/// The library's answer may be that it gave none.
pub fn print_call(call: &Call, plain: &Answer, proved: &Result<Answer, String>) {
    println!("call {} budget {}", call.job.name(), call.budget);
    println!("request    {}", hex(call.request));
    println!("assignment {}", hex(call.assignment));
    println!("table      {}", hex(call.table));
    println!("output area before  {}", hex(&call.output));
    println!("details area before {}", hex(&call.details));
    print_answer("plain program", plain);
    match proved {
        Ok(answer) => print_answer("library", answer),
        Err(reason) => println!("library: no answer: {reason}"),
    }
}

fn print_answer(who: &str, answer: &Answer) {
    println!("{who}: number {}, details {:?}", answer.number, answer.detail_numbers());
    println!("  output area  {}", hex(&answer.output));
    println!("  details area {}", hex(&answer.details));
    if !answer.stayed_inside {
        println!("  bytes beside the areas were written");
    }
}

fn hex(bytes: &[u8]) -> String {
    bytes.iter().map(|byte| format!("{byte:02x}")).collect()
}
