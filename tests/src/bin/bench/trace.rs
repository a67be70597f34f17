use crate::timing::side_by_side;
use compare::generate::bare::with_links;
use compare::generate::shapes::link_run;
use compare::plain;
use compare::random::Random;
use compare::reference::layout::END;
use std::hint::black_box;

const TURNS: usize = 11;

pub fn run() {
    println!("shape, entries, library ns an entry, plain ns an entry, ratio");
    for shape in SHAPES {
        for count in [350_000, 700_000, 1_398_000] {
            one_list(shape.0, &(shape.1)(count));
        }
    }
}

type Shape = (&'static str, fn(u32) -> Vec<u32>);

const SHAPES: [Shape; 5] = [
    ("one chain in order", |count| linked(&in_order(count), false)),
    ("one chain shuffled", |count| linked(&shuffled(count), false)),
    ("one cycle in order", |count| linked(&in_order(count), true)),
    ("one cycle shuffled", |count| linked(&shuffled(count), true)),
    ("chains of one", |count| vec![END; count as usize]),
];

pub fn in_order(count: u32) -> Vec<u32> {
    (0..count).collect()
}

pub fn shuffled(count: u32) -> Vec<u32> {
    let mut order = in_order(count);
    Random::new(37).shuffle(&mut order);
    order
}

pub fn linked(order: &[u32], cycle: bool) -> Vec<u32> {
    let mut links = vec![END; order.len()];
    link_run(&mut links, order, cycle);
    links
}

fn one_list(name: &str, links: &[u32]) {
    let file = with_links(links);
    let mut places = vec![0; links.len()];
    let mut others = vec![0; links.len()];
    let library = hivesaddle::read_file(&file, &mut places);
    assert_eq!(library, plain::read_file(&file, &mut others));
    assert_eq!(places, others);
    let times = side_by_side(
        TURNS,
        1,
        || _ = black_box(hivesaddle::read_file(black_box(&file), &mut places)),
        || _ = black_box(plain::read_file(black_box(&file), &mut others)),
    );
    let entries = links.len() as f64;
    println!(
        "{name}, {}, {:.2}, {:.2}, {:.2}",
        links.len(),
        times.library / entries,
        times.plain / entries,
        times.ratio()
    );
}
