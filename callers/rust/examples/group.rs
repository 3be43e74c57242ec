//! Reads a pair file on standard input, solves it, and prints what the program `group` prints.
use kandurzo::{List, Refusal, Solution};
use std::io::Read;

fn solve(bytes: &[u8]) -> Result<Solution, Refusal> {
    List::read(bytes)?.solve()
}

fn main() -> std::io::Result<()> {
    let mut bytes = Vec::new();
    std::io::stdin().read_to_end(&mut bytes)?;
    match solve(&bytes) {
        Err(refusal) => println!("status={}", refusal.number()),
        Ok(found) => {
            println!("status=0\nratio={}/{}\ncore={},{}", found.p, found.q, found.k, found.core_size);
            found.group().for_each(|v| println!("member={v}"));
        }
    }
    Ok(())
}
