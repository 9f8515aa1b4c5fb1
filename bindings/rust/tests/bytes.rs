//! How many bytes a memory says that it takes, against what the library allocates. It is alone in its program, since it looks
//! at all that the program has allocated.
#![cfg(all(target_env = "gnu", not(feature = "plain")))]

use partial_door::Memory;
use std::hint::black_box;

#[test]
fn a_memory_takes_as_many_bytes_as_it_says() {
    const MMAP_THRESHOLD: i32 = -3;
    const PAGE: usize = 4096;
    #[repr(C)]
    #[derive(Default)]
    struct Info {
        before: [usize; 4],
        mapped: usize,
        after: [usize; 5],
    }
    extern "C" {
        fn mallopt(parameter: i32, value: i32) -> i32;
        fn mallinfo2() -> Info;
    }
    // The library allocates by `malloc`. The GNU one takes a block so large from the system, in whole pages, and counts
    // what it has taken. The buffers of a port are smaller.
    let mapped = || unsafe { mallinfo2() }.mapped;
    let is_set = unsafe { mallopt(MMAP_THRESHOLD, 300 * 1024) } == 1;
    let (before, _block) = (mapped(), black_box(vec![1_u8; 1 << 20]));
    if !is_set || mapped() == before {
        println!("skipped: the program has another `malloc`, such as that of a sanitizer");
        return;
    }
    for (ports, pool_words, list_words, components) in [
        (1, 0, 1024, 8),
        (1, 0, 1024, 20_000),
        (2, 0, 0, 8),
        (4, 0, 1024, 1),
        (8, 0, 9, 700),
        (8, 0, 1024, 3_000),
        (64, 0, 1024, 3),
        (3, 50_000, 11, 37),
        // With up to 65,536 components times ports scans announce themselves, for which there is more room.
        (2, 0, 1024, 32_768),
        (2, 0, 1024, 32_769),
        (16, 0, 64, 4_096),
        (16, 0, 64, 4_097),
        (7, 20_001, 3, 9_362),
        (7, 20_001, 3, 9_363),
        (3, 0, 0, 30_000),
    ] {
        let before = mapped();
        let memory = Memory::builder()
            .ports(ports)
            .pool_words(pool_words)
            .list_words(list_words)
            .open(&vec![0; components])
            .expect("it is made");
        // A block has a word before what the program gets, and another where that ends at a multiple of 16.
        let block = ((memory.bytes() + 8 + 15) & !15) + 8;
        assert_eq!(mapped() - before, block.next_multiple_of(PAGE), "{ports} {pool_words} {list_words} {components}");
    }
}
