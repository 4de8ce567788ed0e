//! 256 links of one width weigh what one link of the next width does, but for
//! the sizes, and 512 of width 3 what a link of width 4 into the first space
//! does, whatever the inner starts.

use crate::graphs::first_fit;
use compare::made::Room;
use compare::shapes::{self, Graph, Link, Piece, PARTS};
use compare::{seed, Checked, Numbers};

fn piece(links: &[Link], byte: u8, size: usize) -> Piece {
    Piece {
        links: links.to_vec(),
        bytes: vec![byte; size],
        links_first: false,
    }
}

/// Adds a piece, and gives its id.
fn add(piece: Piece, graph: &mut Graph) -> usize {
    graph.push(piece);
    graph.len() - 1
}

/// The piece x, and links of this width that lead to it one after the other from
/// the last piece on; a root's link is to be the last of so many.
fn chain(links: usize, width: u32, size: usize, part: usize) -> Graph {
    let mut graph = vec![piece(&[], b'x', size)];
    for child in 0..links - 1 {
        let link = Link::new(width, child).with_part(part);
        graph.push(piece(&[link], b'c', size - width as usize));
    }
    graph
}

/// The root reaches x by 256 links of this width and y by one of the next, with
/// inner starts at these parts of the way to the field. A long leaf keeps the
/// plain order from fitting.
fn by_distance(width: u32, x_size: usize, y_size: usize, parts: [usize; 2]) -> Graph {
    let mut graph = chain(256, width, x_size, parts[0]);
    let to_x = Link::new(width, graph.len() - 1).with_part(parts[0]);
    let y = add(piece(&[], b'y', y_size), &mut graph);
    let long = add(piece(&[], b'l', 70_000), &mut graph);
    let short = add(piece(&[], b's', 9), &mut graph);
    let to_y = Link::new(width + 1, y).with_part(parts[1]);
    let links = [Link::new(3, long), to_x, to_y, Link::new(2, short)];
    graph.push(piece(&links, b'r', 1));
    graph
}

/// The root reaches x by 512 links of width 3 and y, which is the first space, by
/// one of width 4. Two long pieces with a leaf each keep the first two orders
/// from fitting.
fn by_spaces(x_size: usize, y_size: usize, parts: [usize; 2]) -> Graph {
    let mut graph = chain(512, 3, x_size, parts[0]);
    let to_x = Link::new(3, graph.len() - 1).with_part(parts[0]);
    let y = add(piece(&[], b'y', y_size), &mut graph);
    let mut links = vec![Link::new(4, y).with_part(parts[1]), to_x];
    for byte in [b'a', b'b'] {
        let leaf = add(piece(&[], byte, 1), &mut graph);
        let long = add(piece(&[Link::new(2, leaf)], byte, 40_000), &mut graph);
        links.push(Link::new(4, long));
    }
    graph.push(piece(&links, b'r', 1));
    graph
}

fn place(table: &[u8], byte: u8, size: usize) -> usize {
    let run = vec![byte; size];
    let found = table.windows(size).position(|part| part == run);
    found.expect("the piece is in the table")
}

const PART_PAIRS: [[usize; 2]; 5] = [[0, 0], [0, PARTS], [PARTS, 0], [PARTS, PARTS], [9, 3]];

#[test]
fn weights_that_are_equal_but_for_a_byte() {
    let mut numbers = seed::numbers("weights");
    for parts in PART_PAIRS {
        for size in [7, 8, 21] {
            for y_size in about(256 * size) {
                for width in [2, 3] {
                    let graph = by_distance(width, size, y_size, parts);
                    let x_first = weigh(&graph, [size, y_size], 1, parts, &mut numbers);
                    assert_eq!(x_first, y_size > 256 * size);
                }
            }
            for y_size in about(512 * size) {
                let graph = by_spaces(size, y_size, parts);
                let x_first = weigh(&graph, [size, y_size], 2, parts, &mut numbers);
                assert_eq!(x_first, y_size > 512 * size);
            }
        }
    }
}

fn about(size: usize) -> [usize; 3] {
    [size - 1, size, size + 1]
}

/// Packs by this order, and tells whether x comes before y. Of equal keys y comes
/// first, which is ready longer.
fn weigh(
    graph: &Graph,
    [x_size, y_size]: [usize; 2],
    order: usize,
    parts: [usize; 2],
    numbers: &mut Numbers,
) -> bool {
    let room = Room {
        pieces: 600,
        links: 600,
        store: shapes::bytes(graph),
    };
    let root = graph.len() as u32 - 1;
    let mut session = Checked::made(graph, room, numbers);
    let packed = session.pack(root, 0, numbers);
    assert_eq!(packed.answer.number, 0);
    assert_eq!(first_fit(&session.pair.reference, root), order);
    let inner_starts = usize::from(parts != [0, 0]);
    assert_eq!(session.claims.met.packed, inner_starts);
    let table = &packed.output.1;
    place(table, b'x', x_size) < place(table, b'y', y_size)
}
