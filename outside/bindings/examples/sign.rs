//! A sign's table: one leaf shared by two middle objects under one root.

use bindings::{records_need, work_need, Refused, Session};

fn object(session: &mut Session, bytes: &[u8], children: &[u32]) -> Result<u32, Refused> {
    session.open()?;
    session.put(bytes)?;
    for &child in children {
        session.link(2, child, 0)?;
    }
    session.close()
}

fn main() -> Result<(), Refused> {
    let (mut store, mut records) = ([0; 12], vec![0; records_need(4, 4)]);
    let mut session = Session::start(&mut store, &mut records, 4, 4)?;
    let d = object(&mut session, b"d", &[])?;
    let b = object(&mut session, b"b", &[d])?;
    let c = object(&mut session, b"c", &[d])?;
    let a = object(&mut session, b"a", &[b, c])?;

    // No copies: every field reaches its object.
    let (mut out, mut work) = ([0; 16], vec![0; work_need(4, 4, 0)]);
    let packed = session.pack(a, 0, &mut out, &mut work)?;
    println!(
        "table {}",
        packed
            .table
            .iter()
            .map(|byte| format!(" {byte:02x}"))
            .collect::<String>()
    );
    Ok(())
}
