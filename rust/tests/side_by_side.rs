//! Calls on different buffers run side by side: threads that build and read images at the same time get what one thread
//! gets alone.
use cqdb::{MemoryWriter, CQDB};
use std::sync::Barrier;
use std::thread;

const THREADS: u32 = 8;
const IMAGES: u32 = 20;
const NAMES: u32 = 300;

fn name(image: u32, id: u32) -> String {
    format!("prism {image}/{}", id * 7 % NAMES)
}

/// An image of some hundred names, and all that reading it gives.
fn built(image: u32) -> (Vec<u8>, Vec<Option<u32>>, Vec<Vec<u8>>) {
    let mut writer = MemoryWriter::new();
    for id in 0..NAMES {
        writer.put(name(image, id), id).unwrap();
    }
    let bytes = writer.finish().unwrap();
    let db = CQDB::new(&bytes).unwrap();
    let present = (0..NAMES).map(|id| name(image, id));
    let absent = (0..NAMES).map(|id| name(IMAGES + image, id));
    let ids = present.chain(absent).map(|name| db.to_id(&name)).collect();
    let names = db.iter().map(|step| step.unwrap().1.to_vec()).collect();
    (bytes, ids, names)
}

#[test]
fn threads_get_what_one_gets_alone() {
    let alone: Vec<_> = (0..IMAGES).map(built).collect();
    for (_, ids, names) in &alone {
        assert_eq!((ids.iter().flatten().count(), names.len()), (NAMES as usize, NAMES as usize));
    }
    let start = Barrier::new(THREADS as usize);
    thread::scope(|scope| {
        for thread in 0..THREADS {
            let (start, alone) = (&start, &alone);
            scope.spawn(move || {
                start.wait();
                for i in 0..IMAGES {
                    let image = (i + thread) % IMAGES;
                    assert!(built(image) == alone[image as usize], "thread {thread}, image {image}");
                }
            });
        }
    });
}
