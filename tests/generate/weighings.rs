//! Weight, weighed and unweigh lines: items that make a wanted load, in the place of load lines and between others, and
//! lines that are nearly these.

use crate::chance::Chance;
use crate::limits;
use crate::shape::{Item, Load};
use crate::spelling::{self, CLEAR, JUDGE, UNWEIGH};

/// The greatest height of an item, and so of a KG.
pub const HIGHEST: i128 = 50_000;

/// Lines that are nearly a weight, a weighed or an unweigh, and these in the wrong place: 11 to 14.
const NO_WEIGHING: [&str; 68] = [
    "(weigh 500 500)",
    "(weights 500 500)",
    "(weigth 500 500)",
    "(wweight 500 500)",
    "(weight500 500)",
    "(wei ght 500 500)",
    "(weight)",
    "(weight 500)",
    "(weight 500 500 500)",
    "(weight a 500)",
    "(weight 500 a)",
    "(weight a1 500)",
    "(weight (500) 500)",
    "(weight 500 (500))",
    "(weight (500 500))",
    "(weight 500 500 ())",
    "(weight (weight 500 500))",
    "(weight weight 500 500)",
    "(500 weight 500)",
    "((weight 500 500))",
    "(weight 007 500)",
    "(weight 500 00)",
    "(weight 1000000000 500)",
    "(weight 500 1000000000)",
    "(weight 5a 500)",
    "(weight 500 500",
    "(weight 500 500))",
    "(weight 500 500) (weight 500 500)",
    "(weight 500 500) 500",
    "(weight -500 500)",
    "(Weight 500 500)",
    "(weight 500,500)",
    "(weighd 0)",
    "(weighted 0)",
    "(weighing)",
    "(weighing 0)",
    "(weighed)",
    "(weighed 0 0)",
    "(weighed a)",
    "(weighed (0))",
    "(weighed ())",
    "(weighed weighed)",
    "(weighed (load 500 500 0))",
    "((weighed 0))",
    "(weighed 00)",
    "(weighed 007)",
    "(weighed 1000000000)",
    "(weighed 0) (judge)",
    "(weighed 0.5)",
    "(unweighed)",
    "(unweight)",
    "(unweig)",
    "(un weigh)",
    "(unweigh 0)",
    "(unweigh 1)",
    "(unweigh ())",
    "(unweigh unweigh)",
    "(unweigh (clear))",
    "(clear unweigh)",
    "(clear (unweigh))",
    "((unweigh))",
    "(((((unweigh)))))",
    "(unweigh (a (b (c (d)))))",
    "(unweigh 01)",
    "(unweigh",
    "(unweigh))",
    "(unweigh) (unweigh)",
    "(UNWEIGH)",
];

/// These lines in a show, which does not take them.
pub const SHOWN_WEIGHING: [&str; 8] = [
    "(show (weight 500 500))",
    "(show (weight 0 0))",
    "(show (weighed 0))",
    "(show (weighed 999999999))",
    "(show (unweigh))",
    "(show unweigh)",
    "(show (unweigh) (judge))",
    "(show (show (unweigh)))",
];

/// Lines of every sort that are turned down whatever the condition is: 20 and 21.
pub const OUT_OF_LIMITS: [&str; 12] = [
    "(ship new 0 1)",
    "(column 99 1 (0 0 0 0 0 0 0 0 0 0))",
    "(load 99 1 0)",
    "(load 100 50001 0)",
    "(hold 1 partial 4999 (part 1 1 1 1))",
    "(hold 1 partial 12500 (split 1 2 1 1))",
    "(hold 1 trimmed 12500 (part 9000 (void 10000 500 1)))",
    "(drop 17)",
    "(weight 0 500)",
    "(weight 400001 500)",
    "(weight 500 50001)",
    "(weighed 10001)",
];

/// A line that is nearly one of these, or one in the wrong place.
pub fn turned_down(chance: &mut Chance) -> String {
    if chance.one_in(8) {
        return chance.pick(&SHOWN_WEIGHING).to_string();
    }
    chance.pick(&NO_WEIGHING).to_string()
}

/// Any item within its limits.
pub fn odd_item(chance: &mut Chance) -> Item {
    Item { tonnes: chance.odd(1, 400_000), height: chance.odd(0, HIGHEST) }
}

/// A parcel of cargo, a tank or the stores of a likely ship.
pub fn likely_item(chance: &mut Chance) -> Item {
    Item { tonnes: chance.small(1, 1_000), height: chance.between(0, 15_000) }
}

/// FS of a likely load.
pub fn likely_fs(chance: &mut Chance) -> i128 {
    chance.between(0, 300)
}

/// Items with these sums of tonnes and of products, in an order by chance.
pub fn items_of(chance: &mut Chance, tonnes: i128, products: i128) -> Vec<Item> {
    let (mut left, mut rest) = (tonnes, products);
    let mut items = Vec::new();
    for _ in 0..chance.pick(&[0, 0, 1, 2, 3, 6]) {
        let item =
            Item { tonnes: chance.small(1, left), height: chance.between(0, (2 * rest / left + 1).min(HIGHEST)) };
        let others = (left - item.tonnes, rest - item.tonnes * item.height);
        // An item that the others cannot make up for is left out.
        if others.0 > 0 && (0..=HIGHEST * others.0).contains(&others.1) {
            items.push(item);
            (left, rest) = others;
        }
    }
    // What is left lies at the two heights next to its mean.
    let (height, higher) = (rest / left, rest % left);
    items.push(Item { tonnes: left - higher, height });
    if higher > 0 {
        items.push(Item { tonnes: higher, height: height + 1 });
    }
    chance.shuffled(items)
}

/// The weight lines of items with these sums.
pub fn weights_of(chance: &mut Chance, tonnes: i128, products: i128) -> Vec<String> {
    items_of(chance, tonnes, products).iter().map(spelling::weight).collect()
}

/// Lines that weigh just this load: an unweigh, weight lines, and the weighed line. KG is rounded up, so that products
/// between two multiples of D give it.
pub fn weighing(chance: &mut Chance, load: &Load) -> Vec<String> {
    let most = load.kg * load.d;
    let least = if load.kg == 1 { 0 } else { most - load.d + 1 };
    let products = match chance.below(4) {
        0 => least,
        1 => most,
        2 => most - 1,
        _ => chance.between(least, most),
    };
    let mut lines = vec![UNWEIGH.to_string()];
    lines.extend(weights_of(chance, load.d, products));
    lines.push(spelling::weighed(load.fs));
    lines
}

/// The load that a load line gives, if it is within its limits.
fn load_of(line: &str) -> Option<Load> {
    let numbers = line.strip_prefix("(load ")?.strip_suffix(')')?;
    let numbers: Vec<i128> = numbers.split(' ').map_while(|number| number.parse().ok()).collect();
    let [d, kg, fs] = numbers[..] else { return None };
    let load = Load { d, kg, fs };
    limits::load(&load).then_some(load)
}

/// The lines of a lot with weighed lines between them that change no condition. One in so many loads is weighed from
/// items. Behind some of the later lines it is weighed once more, and then any load that was sent since is sent again. A
/// lot that has weighings of its own is left as it is.
pub fn in_place_of_loads(chance: &mut Chance, lines: Vec<String>, one_in: usize) -> Vec<String> {
    if lines.iter().any(|line| line.contains("weigh")) {
        return lines;
    }
    let mut all = Vec::new();
    // The weighed line that the items stand for, and the load line that was sent since.
    let mut weighed: Option<String> = None;
    let mut loaded: Option<String> = None;
    for line in lines {
        let load = load_of(&line);
        if let Some(load) = load.filter(|_| chance.one_in(one_in)) {
            all.extend(weighing(chance, &load));
            (weighed, loaded) = (all.last().cloned(), None);
            continue;
        }
        if load.is_some() {
            loaded = Some(line.clone());
        } else if line == CLEAR {
            (weighed, loaded) = (None, None);
        }
        let behind = match (&weighed, line.as_str()) {
            // A clear has removed all items, those of the lot before too.
            (None, CLEAR) => chance.one_in(8),
            (None, _) => false,
            (Some(_), JUDGE) => chance.one_in(30),
            (Some(_), _) => chance.one_in(6),
        };
        all.push(line);
        if behind {
            all.push(weighed.clone().unwrap_or_else(|| spelling::weighed(chance.odd(0, 10_000))));
            all.push(JUDGE.to_string());
            all.extend(loaded.clone());
        }
    }
    all
}

/// The lines of a run with a weighed line and a judge behind some of them, which tell what became of the items.
pub fn with_weighed(chance: &mut Chance, lines: Vec<String>) -> Vec<String> {
    let mut all = Vec::new();
    let mut held = false;
    for line in lines {
        let removed = line == CLEAR || line == UNWEIGH;
        held = (held || line.starts_with("(weight ")) && !removed;
        let one_in = match line.as_str() {
            _ if removed => 5,
            JUDGE => 30,
            _ if !held => 40,
            // Drops of holds that are held are not many.
            _ if line.starts_with("(drop") => 2,
            _ => 6,
        };
        all.push(line);
        if chance.one_in(one_in) {
            match chance.below(12) {
                0 => all.push(turned_down(chance)),
                1 | 2 => all.push(chance.pick(&OUT_OF_LIMITS).to_string()),
                _ => {}
            }
            all.extend([spelling::weighed(likely_fs(chance)), JUDGE.to_string()]);
        }
    }
    all
}
