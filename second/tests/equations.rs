//! Document 02 (v): "For C <= D <= T the value is the same" by document 000's equation 3 and by document 001's equation 5.

use second::verdict::part;

/// Document 001's equation 5: "floor(t/T)C + min(C, t mod T)".
fn by_equation_five(separation: u64, length: u64, t: u64) -> u64 {
    t / separation * length + length.min(t % separation)
}

#[test]
fn equation_three_is_equation_five() {
    let mut tried = 0u64;
    for separation in 1..=40 {
        for deadline in 1..=separation {
            for length in 1..=deadline {
                for t in 0..=200 {
                    assert_eq!(
                        part(separation, deadline, length, t),
                        by_equation_five(separation, length, t),
                        "T {separation}, D {deadline}, C {length}, t {t}"
                    );
                    tried += 1;
                }
            }
        }
    }
    // As many triples C <= D <= T <= 40 as there are ways to choose three of 42, and 201 lengths t.
    assert_eq!(tried, 11_480 * 201);
}

#[test]
fn the_whole_units_and_the_carry_in() {
    // T 8, D 5, C 3: in 12 slices one unit is whole, floor((12 + 3)/8), and 4 slices are left, which carry 3 in.
    assert_eq!(part(8, 5, 3, 12), 3 + 3);
    // In 13 a second is whole, floor((13 + 3)/8), and 13 - 2*8 is below 0: "max{0, ..}".
    assert_eq!(part(8, 5, 3, 13), 2 * 3);
    // In 10 slices 2 are left: "min{C, ..}".
    assert_eq!(part(8, 5, 3, 10), 3 + 2);
    // In none, nothing.
    assert_eq!(part(8, 5, 3, 0), 0);
}

#[test]
fn outside_the_range() {
    // C above D: a whole unit counts where equation 5 counts what is cut off.
    assert_eq!(part(8, 2, 3, 2), 3);
    assert_eq!(by_equation_five(8, 3, 2), 2);
    // D above T counts as T.
    assert_eq!(part(8, 20, 3, 10), part(8, 8, 3, 10));
    // D of 0: a unit is whole at once.
    assert_eq!(part(8, 0, 3, 0), 3);
    // T of 0: no whole units, so the carry-in alone.
    assert_eq!(part(0, 2, 3, 2), 2);
    assert_eq!(part(0, 2, 3, 5), 3);
    // The greatest fields.
    assert_eq!(part(1, 0, 65_535, 65_535), 65_536 * 65_535);
}
