//! Scenario files with a read that is made to be slow: pairs over pairs, with two ways down at each level and one constant beneath them all.

/// What is known on one of the two ways at a level: the level, lowest first, and the way.
pub type Choice = (usize, usize);

/// A read whose ways double at each level, of which any leads to a constant that is known.
pub fn doubling(levels: usize) -> Vec<u8> {
    levelled(levels, &[vec![]], 1)
}

/// A read of so many levels by each of some roles. The constant beneath is known on the ways on which one of the lists of choices is made.
pub fn levelled(levels: usize, lists: &[Vec<Choice>], roles: u8) -> Vec<u8> {
    let mut table = Table::default();
    let mut known: Vec<u8> = (0..roles).map(|i| table.row([5, i, 0])).collect();
    let constant = table.row([3, 0, 0]);
    let mut top = constant;
    let mut ways = vec![];
    for level in 1..=levels as u8 {
        // Each part opens by the other: the first's key is the second, and the second's key is known with the first.
        let key = table.row([3, level, 0]);
        let second = table.row([12, top, key]);
        let first = table.row([12, top, second]);
        top = table.row([11, first, second]);
        known.push(table.row([12, key, first]));
        ways.push([second, first]);
    }
    for list in lists {
        let given = list.iter().fold(constant, |content, &(level, way)| table.row([12, content, ways[level][way]]));
        known.push(given);
    }
    known.sort();
    known.dedup();
    file(&table.0.concat(), &known, top, roles)
}

/// Every list of choices at the given levels, the last left out if it is asked for: then the read is not well formed.
pub fn all_choices(levels: &[usize], last_left_out: bool) -> Vec<Vec<Choice>> {
    let count = (1 << levels.len()) - usize::from(last_left_out);
    (0..count).map(|bits| levels.iter().enumerate().map(|(i, &level)| (level, bits >> i & 1)).collect()).collect()
}

/// Choices at the given levels of which some list is always made: the first way at the first, or the second way at one and the first at the
/// next, or the second way at the last.
pub fn chained(levels: &[usize]) -> Vec<Vec<Choice>> {
    let mut lists = vec![vec![(levels[0], 0)]];
    lists.extend(levels.windows(2).map(|pair| vec![(pair[0], 1), (pair[1], 0)]));
    lists.push(vec![(levels[levels.len() - 1], 1)]);
    lists
}

/// Levels from above and from below in turn.
pub fn crossed(levels: usize) -> Vec<usize> {
    (0..levels).rev().map(|i| if i % 2 == 0 { i / 2 } else { levels - 1 - i / 2 }).collect()
}

/// A read that a search over tables found to be slow. It is not well formed.
pub fn found() -> Vec<u8> {
    file(&bytes(FOUND_ROWS), &bytes(FOUND_KNOWN), 72, 1)
}

const FOUND_ROWS: &str = "\
    0500000300000c01010364000c03030b03020b03010c04060c01070c06010c06090b0a090c05070c0b060c0b0d0c0b0e0b0e0f0c0d0f0c0f0b0c1012\
    0c10130b14130c12140b160d0c15170c15180b19180c120b0b04130c1a1c0c1a1d0b1e1d0c1c1e036a000c1f210c10220b22230c2123036b000c2426\
    0c24270b28270c26280c1d040c292b0c292c0b2d2c0c2b2d0c241a0c2e300c2e310b32310c30320c0a000c09350c33360b37360c342c0c34390c383a\
    0c17100b3b3c0c3a0d0c300a0c23350c3d400b41400b1e040c42020b2b440c45420c44460b47460c41150c16080c1e370c43460b4c160c20080c0d3c\
    0b31240c46200b0a130b0c330b2c0b0c26520c4d450c0c100b13070c49120c4d2d0b273a0c55270c5a210c01400c5e31";

const FOUND_KNOWN: &str = "0002081116252a2f343e494a4e4f57595c5d5f";

/// Files that searches found to be slow, by the steps that they need: of four roles, of four that read more, and of one. None is well formed.
pub fn climbed() -> [Vec<u8>; 3] {
    [FOUR_ROLES, FOUR_THAT_READ_MORE, ONE_ROLE].map(bytes)
}

const FOUR_ROLES: &str = "\
    010000000901200500000501000502000503000300000301000b05010c04040b07060c05070302000c080a0c050b0b0c0b0c0a0c0303000c0d0f0c07\
    100b11100c0f110304000c12140c01080b16150c14160c13120c17190c180b0b1b1a0c191b0306000b1d1c0c1c1f0b201f0c1e200307000c1c230c21\
    240b25240c23250308000c26280c26290b2a290c282a0309000c2b2d0c2b2e0b2f2e0c2d2f0c03040c30320c30330b34330c3234030b000c35370c35\
    380b39380c3739030c000c3a3c0c3a3d0b3e3d0c3c3e0c18240c3f210c421f0c19010c44290c192a0c461a0c1c1b0c482e0c042f0c4a150c04160c4c\
    330c2b340c4e100c4c110c50380c1a390c520b0c040c0c543d0c043e0c56060c04070c55520c250a0b37530c581a0c3b370b3d520c5a44009b1d0001\
    02090e13181d22272c31363b4041434547494b4d4f515355575859010100003f1e000102090e13181d22272c31363b4041434547494b4d4f51535557\
    585a5f020100003f010001501e000102090e13181d1e272c31363b4041434547494b4d4f5153555758595f010100023f1e00010203090e13181d2227\
    2c31363b4041434547494b4d4f515355585c5f030100003f010003390100033900000000";

const FOUR_THAT_READ_MORE: &str = "\
    010000000901200500000501000502000503000300000301000b05000c00040b07050c08040302000c080a0c070b0b0c0b0c0a0c0303000c0d0f0c0d\
    070b11100c0f110c110c0c12140c0e100b16150c14160c02170c17190c050b0b1b1a0c191b0306000b1e1c0c191c0b201f0c1d1f0307000c1c230c21\
    240b25240c23250c27080c26280c26290b2a290c282a0309000c2b2d0c2b2e0b2f2e0c2d2f0c03300c30320c30330b34330c3234030b000c35370c35\
    380b39380c3739030c000c3a3c0c3a3d0b3e3d0c3c3e0c363f0c3f230c421f0b19430c44290c192a0c461a0c1c1b0c482e0c1f2f0c4a150c04160c4c\
    330c2b340c4e100c4c110c50380c1a390c520b0c040c0c543d0c543e0c56060c53550b55400c25560b1e2b0c58270c5a560c5c580b5e5a00ca1d0001\
    090e13181d1e22272c31363b4547494b4d4f5153555758595a5e5f080100003f010000190100005c0100005c0100001101000040010000580100005f\
    1d000102090e13181d1e272c31363b4547494b4d4f5153555758595a5e5f060100013f0100015c0100015a0100015d01000158010001331a0002090e\
    13181d1e272c31363b404547494b4d4f515557595a5c030100023f0100025b010002071e0001020305060e13181d1e20272c31363b40414243454749\
    4b4d4f51595c030100033f0100030f0100034f00000000";

const ONE_ROLE: &str = "\
    010000000901200500000300000c01010364000c02030c00020b03010b00060c05070c07010c07090b0a090c05060c0b060c0b0d0c0b0e0b0e0f0c0d\
    0f0c0c030c10120c10130b14130c12140b110d0c15170c15180b19180b161a0b04130c1a1c0c1b1d0b1e1d0c1c1e036a000c1d0c0c1f110b02230c19\
    0f036b000c23260c24270b28270c26280c1d040c292b0c292c0b2d2c0c2a280c21280c2e300c2e310b32310c30320b0a340c1a350c33360b37360c0c\
    350c35380c383a0c2d060b3b3c0c3a3c0c3e3b0c3f350c3d400b41400c40400c423f0b2b440c45450c42460b47460c48480c46460c34440c45460b4c\
    490c4c220c0d3c0b4b480c12360b0a130b51060c400e0c50520c08010c54510c53520c55580c4d2d0b555a0c5b270c585b0c01400c5e310028120005\
    1120222f34393e3f434a4f5657595c5f050100005b01000025010000030100005b0100005200000000";

fn bytes(digits: &str) -> Vec<u8> {
    (0..digits.len()).step_by(2).map(|i| u8::from_str_radix(&digits[i..i + 2], 16).unwrap()).collect()
}

/// The file of a table and roles that know the same rows and read the same row.
pub fn file(table: &[u8], known: &[u8], read: u8, roles: u8) -> Vec<u8> {
    let role = [&[known.len() as u8], known, &[1, 1, 0, 0, read]].concat();
    let mut file = vec![1, 0, 0, 0, 9];
    for block in [table, &role.repeat(roles.into()), &[], &[]] {
        file.extend((block.len() as u16).to_be_bytes());
        file.extend(block);
    }
    file
}

#[derive(Default)]
struct Table(Vec<[u8; 3]>);

impl Table {
    /// The number of a row, which is added if it is new.
    fn row(&mut self, row: [u8; 3]) -> u8 {
        let place = self.0.iter().position(|&r| r == row);
        let place = place.unwrap_or_else(|| {
            self.0.push(row);
            self.0.len() - 1
        });
        place as u8
    }
}
