include!(concat!(env!("HYBIT_SRC"), "/crates/hybit-core/src/lib.rs"));
