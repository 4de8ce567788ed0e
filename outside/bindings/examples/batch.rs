//! The table of `sign.rs`, its objects written in one call.

use bindings::{batch_need, records_need, work_need, Batch, Session};

fn object(batch: &mut Batch, bytes: &[u8], children: &[usize]) -> usize {
    batch.open();
    batch.put(bytes);
    for &child in children {
        batch.link_own(2, child, 0);
    }
    batch.close()
}

fn main() {
    let mut batch = Batch::new();
    let d = object(&mut batch, b"d", &[]);
    let b = object(&mut batch, b"b", &[d]);
    let c = object(&mut batch, b"c", &[d]);
    let a = object(&mut batch, b"a", &[b, c]);

    let (mut store, mut records) = ([0; 12], vec![0; records_need(4, 4)]);
    let mut session = Session::start(&mut store, &mut records, 4, 4).expect("started");
    let (mut ids, mut work) = (vec![0; batch.closes()], vec![0; batch_need(4, 4)]);
    let ids = batch.run(&mut session, &mut ids, &mut work);
    let root = ids.expect("all calls are carried out")[a];

    let (mut out, mut work) = ([0; 16], vec![0; work_need(4, 4, 0)]);
    let packed = session.pack(root, 0, &mut out, &mut work).expect("packed");
    println!(
        "table {}",
        packed
            .table
            .iter()
            .map(|byte| format!(" {byte:02x}"))
            .collect::<String>()
    );
}
