//! What two of examples/ say of themselves. The doubled line, scored as written,
//! passes a board at 3/4, and the degree is 1/2. With the boards that are out for
//! repair counted in, a pick list offers one that is not in the building.

use std::path::Path;

use second::degree::degree;
use second::fraction::Fraction;
use second::judged::{Judged, WITHDRAWN};
use second::register::read_whole;
use second::requirement::{self, Node};
use second::Refusal;

fn example(name: &str) -> Vec<u8> {
    let folder = Path::new(env!("CARGO_MANIFEST_DIR")).join("../../examples");
    std::fs::read(folder.join(name)).unwrap()
}

/// The slip: the value of the tree as it is written, nothing dropped.
fn as_written(judged: &Judged, node: &Node, item: u16) -> Fraction {
    let n = node.names.count_ones() as usize + node.children.len();
    if n == 0 {
        return Fraction::ONE;
    }
    let held = judged.names(item) & node.names;
    let mut sum = Fraction::whole(u128::from(held.count_ones()));
    for (role, child) in &node.children {
        let values = judged
            .successors(item, *role)
            .map(|to| as_written(judged, child, to));
        if let Some(best) = values.max() {
            sum = sum.plus(best);
        }
    }
    sum.over(n as u128)
}

#[test]
fn the_doubled_line() {
    let house = example("house.register");
    let doubled = example("doubled.requirement");
    let judged = Judged::of(&read_whole(&house).unwrap());
    let root = requirement::read(&doubled).unwrap();
    assert_eq!(as_written(&judged, &root, 2), Fraction::new(3, 4));
    let (num, den, map) = degree(&house, &doubled, 2, 64).unwrap();
    assert_eq!((num, den), (1, 2));
    assert_eq!(map, [2, 65_534, 11]);
}

/// The register with nothing withdrawn, and as it is.
#[test]
fn out_for_repair() {
    let register = example("repair.register");
    let wanted = example("repair.requirement");
    let mut all = read_whole(&register).unwrap();
    for names in &mut all.names {
        *names &= !(1 << WITHDRAWN);
    }
    let all = second::register::encode(&all);
    assert_eq!(degree(&all, &wanted, 0, 3), Ok((1, 1, vec![0, 3, 1])));
    assert_eq!(degree(&register, &wanted, 0, 3), Ok((5, 6, vec![0, 4, 1])));
    assert_eq!(degree(&register, &wanted, 3, 3), Err(Refusal::call(26)));
}
