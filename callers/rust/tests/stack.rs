//! The stack: each method of `List` in a thread that has little more than is stated for its call, and the same figures here as in the header for C.
mod plain;

use kandurzo::ffi::stack;
use kandurzo::{Kit, List, Place, Refusal};
use plain::{dimacs, files, lists, Random};
use std::thread;

/// For the thread itself and the wrapper: less than the 65,536 bytes of a work buffer, which would be noticed on the stack.
const ALLOWANCE: usize = 32768;

fn within<T: Send>(bytes: usize, call: impl FnOnce() -> T + Send) -> T {
    let small = thread::Builder::new().stack_size(bytes + ALLOWANCE);
    thread::scope(|scope| small.spawn_scoped(scope, call).unwrap().join().unwrap())
}

#[test]
fn each_method_in_a_small_thread() {
    let mut random = Random(1);
    for (n, m) in [(2, 1), (100, 4096), (512, 4096)] {
        let drawn = lists::uniform(&mut random, n, m);
        let file = files::scattered(&drawn, &mut random);
        let (a, b, w) = drawn.pairs[m / 2];
        let (a, b, w) = (a as u32, b as u32, w as u32);
        let mut none = within(stack::START, || List::new(n as u32)).unwrap();
        assert_eq!(within(stack::SOLVE, || none.solve()).map_err(Refusal::number), Err(20));
        assert_eq!(within(stack::CHECK, || none.check(&vec![1; n], &[])).map_err(Refusal::number), Err(20));
        assert_eq!(within(stack::PEEL, || none.peel()).unwrap().cores, vec![0; n]);
        assert_eq!(within(stack::KIT, || none.kit(1)).map_err(Refusal::number), Err(20));
        let mut list = within(stack::READ, || List::read(&file)).unwrap();
        assert_eq!(within(stack::PLACE, || list.place(b, a)), Ok(Place { held: true, at: m / 2 }));
        assert_eq!(within(stack::REMOVE, || list.remove(a, b)), Ok(()));
        assert_eq!(within(stack::PLACE, || list.place(a, b)), Ok(Place { held: false, at: m / 2 }));
        assert_eq!(within(stack::ADD, || list.add(b, a, w)), Ok(()));
        assert_eq!(list.pairs(), drawn.records());
        assert_eq!(within(stack::ADD, || list.add(a, b, 1001 - w)).map_err(Refusal::number), Err(19));
        let scattered = dimacs::lines(&drawn, &mut random).concat();
        assert_eq!(within(stack::WRITE_DIMACS, || list.write_dimacs()), Ok(dimacs::write(&drawn)));
        let read = within(stack::READ_DIMACS, || List::read_dimacs(&scattered)).unwrap();
        assert_eq!(read.pairs(), drawn.ones().records());
        assert_eq!(within(stack::PEEL, || list.peel()).unwrap().order, drawn.leaving());
        let found = within(stack::SOLVE, || list.solve()).unwrap();
        assert_eq!(within(stack::CHECK, || list.check(&found.members, &found.shares)), Ok((found.p, found.q)));
        assert_eq!(within(stack::SURPLUS, || list.surplus(&found.members, &found.members)), Ok(0));
        let (members, p, q) = drawn.kit(n / 2);
        assert_eq!(within(stack::KIT, || list.kit(n as u32 / 2)), Ok(Kit { p: p as u32, q: q as u32, members }));
        assert_eq!(within(stack::KIT, || list.kit(0)).map_err(Refusal::number), Err(21));
    }
}

#[test]
fn figures_of_the_header() {
    let figures = [
        ("START", stack::START),
        ("ADD", stack::ADD),
        ("REMOVE", stack::REMOVE),
        ("PLACE", stack::PLACE),
        ("READ", stack::READ),
        ("READ_DIMACS", stack::READ_DIMACS),
        ("WRITE_DIMACS", stack::WRITE_DIMACS),
        ("PEEL", stack::PEEL),
        ("SOLVE", stack::SOLVE),
        ("CHECK", stack::CHECK),
        ("SURPLUS", stack::SURPLUS),
        ("KIT", stack::KIT),
    ];
    let here: Vec<String> = figures.iter().map(|(name, bytes)| format!("KANDURZO_STACK_{name} = {bytes}")).collect();
    let header = include_str!("../../c/kandurzo.h").lines().map(|line| line.split(',').next().unwrap().trim());
    assert_eq!(header.filter(|line| line.starts_with("KANDURZO_STACK_")).collect::<Vec<_>>(), here);
    assert_eq!(figures.iter().map(|figure| figure.1).max(), Some(kandurzo::STACK));
}
