
/// Plays script after script from standard input, each behind its length, and prints what each shows in the same way.
fn main() {
    use std::io::{stdin, stdout, Read, Write};
    let mut length = [0; 8];
    while stdin().read_exact(&mut length).is_ok() {
        let mut input = vec![0; u64::from_le_bytes(length) as usize];
        stdin().read_exact(&mut input).expect("a whole script");
        let mut output = Vec::new();
        script::run(&input, &mut output);
        let length = (output.len() as u64).to_le_bytes();
        stdout().write_all(&length).expect("a reader");
        stdout().write_all(&output).expect("a reader");
        stdout().flush().expect("a reader");
    }
}
