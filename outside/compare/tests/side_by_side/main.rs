//! Both packers side by side: one program, so that its tests share the
//! processors.

mod apart;
mod batches;
mod calls;
mod cases;
mod copies;
mod ends;
mod frames;
mod full;
mod graphs;
mod gsub;
mod hopeless;
mod jobs;
mod largest;
mod made;
mod needs;
mod plain;
mod same_root;
mod spaces;
mod tampered;
mod weights;
