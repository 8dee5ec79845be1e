//! Reads cases, one a line, and prints what the unchanged Rust leaves, one a line; see Case::parse and Reply::line.
//! Empty lines and those that begin with # are passed over. What cases::LEFT_OUT says is refused, since the Rust is not asked for it.

use std::io::{self, BufRead, BufWriter, Write};

fn answer(case: oracle::Case) -> Result<oracle::Reply, String> {
    let transfer = matches!(case.call, oracle::Call::CoprocessorRegister | oracle::Call::Wrapper) && oracle::cases::left_out(case.word);
    let directed = oracle::cases::rounds(case.call, case.word) && case.state[49] >> 22 & 3 != 0;
    let reply = oracle::answer(&case);
    let payload = case.call == oracle::Call::DataProcessing && oracle::payload(case.word, &case.state, &reply.state);
    if transfer || directed || payload {
        return Err(format!("{:08X}: {}", case.word, oracle::cases::LEFT_OUT));
    }
    Ok(reply)
}

fn main() {
    let mut out = BufWriter::new(io::stdout().lock());
    for (i, line) in io::stdin().lock().lines().enumerate() {
        let line = line.unwrap();
        if line.trim().is_empty() || line.starts_with('#') {
            continue;
        }
        match oracle::Case::parse(&line).and_then(answer) {
            Ok(reply) => writeln!(out, "{}", reply.line()).unwrap(),
            Err(e) => {
                out.flush().unwrap();
                eprintln!("line {}: {e}", i + 1);
                std::process::exit(1);
            }
        }
    }
}
