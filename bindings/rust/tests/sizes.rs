//! What the crate says of the sizes of a memory, against what the library does.

use partial_door::{Memory, OpenError};

/// Whether a memory of so many components is made.
fn opens(ports: u32, pool_words: u32, list_words: u32, components: usize) -> Result<Memory, OpenError> {
    Memory::builder().ports(ports).pool_words(pool_words).list_words(list_words).open(&vec![0; components])
}

#[test]
fn the_greatest_number_of_components_is_where_the_library_refuses_more() {
    for ports in [1, 2, 3, 7, 33, 64, 255] {
        for pool_words in [0, 1, 16_384, 130_001, 4_000_000] {
            let builder = Memory::builder().ports(ports).pool_words(pool_words).list_words(7);
            let most = builder.max_components();
            assert_eq!(opens(ports, pool_words, 7, most + 1).err(), Some(refusal(most)), "{ports} {pool_words}");
            // A greater memory would take gigabytes.
            if most > 0 && ports < 4 {
                assert_eq!(opens(ports, pool_words, 7, most).err(), None, "{ports} {pool_words}");
            }
        }
    }
}

#[test]
fn fewer_components_may_be_refused_when_scans_announce_themselves() {
    // 2 ports want 194 + 4 m words for their greatest claims as long as they have up to 32,768 components, and then 192.
    assert_eq!(Memory::builder().ports(2).pool_words(4_000_000).max_components(), 64_704);
    for (components, error) in
        [(27_730, None), (27_731, Some(OpenError::PoolWords)), (32_768, Some(OpenError::PoolWords)), (32_769, None)]
    {
        assert_eq!(opens(2, 4_000_000, 7, components).err(), error, "{components}");
    }
}

#[test]
fn a_memory_of_64_ports_has_room_for_all_components() {
    // It takes nearly a gigabyte, and twice that while it opens: no other test makes one.
    const COMPONENTS: usize = 65_536;
    let memory = opens(64, 0, 1024, COMPONENTS).expect("a memory is made");
    let mut port = memory.port().expect("a port is free");
    assert!(port.update(65_535, 7).expect("it isn't refused").is_applied());
    let mut values = vec![1; COMPONENTS];
    assert_eq!(port.scan_all(&mut values).expect("it isn't refused").borrowed, None);
    assert!(values[..65_535].iter().all(|&value| value == 0));
    assert_eq!(values[65_535], 7);
}

/// Why a memory of one component more is refused.
fn refusal(most: usize) -> OpenError {
    if most == 65_536 {
        OpenError::Components
    } else {
        OpenError::PoolWords
    }
}

#[test]
fn no_component_fits_where_no_memory_is_made() {
    for builder in [
        Memory::builder().ports(0),
        Memory::builder().ports(256),
        Memory::builder().list_words(65_537),
        Memory::builder().pool_words(4_194_305),
        Memory::builder().pool_words(4_194_304).ports(1),
        Memory::builder().pool_words(u32::MAX),
    ] {
        assert_eq!(builder.max_components(), 0);
        assert!(builder.open(&[0]).is_err());
    }
    // One component and one port want 3 words for the initial record, and 6 + 93 for the greatest claim.
    let least = Memory::builder().pool_words(4_194_304 - 102).ports(1);
    assert_eq!(least.max_components(), 1);
    assert!(least.open(&[0]).is_ok());
}
