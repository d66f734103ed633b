//! Segments, and DMA windows.

mod common;

use common::grants;
use papr::{DeviceOutcome, Error, Segments, Slot, SlotRefusal, Want, Window, WindowError};

#[test]
fn segments() {
    let mut segments = Segments::new();
    let refused = [
        (0x1800_0003, 0x5E10, SlotRefusal::PageSize),
        (0x1800_0003, 0x8000_0000_0000_5E00, SlotRefusal::SegmentSize),
        (0x1800_0020, 0x5E00, SlotRefusal::Slot),
    ];
    for (rb, rs, refusal) in refused {
        assert_eq!(segments.slbmte(rb, rs), Err(refusal));
    }
    segments.slbmte(0x1800_0003, 0x5D00).unwrap();
    let slot = Slot {
        esid: 1,
        vsid: 5,
        shift: 24,
        one_tb: false,
        ks: true,
        kp: true,
        no_execute: false,
    };
    assert_eq!(segments.find(0x1234_5678), Some(slot));
    assert_eq!(segments.find(0x234_5678), None);
    segments
        .slbmte(0x0000_0100_0800_0001, 0x4000_0000_0700_0A00)
        .unwrap();
    let found = segments.find(0x1FF_FFFF_FFFF).unwrap();
    assert!(found.one_tb && found.ks && !found.kp && found.no_execute);
    let access = found.access(0x1FF_FFFF_FFFF, Want::Fetch, true);
    assert!(access.one_tb && !access.key && access.no_execute);
    assert_eq!((access.vsid, access.shift), (7, 12));
    segments.clear();
    assert_eq!(segments.find(0x1FF_FFFF_FFFF), None);
}

#[test]
fn windows() {
    let mut window = Window::new(0x7000, 3, grants()).unwrap();
    let reply = window.put_tce(0x8123, 0x4001);
    assert_eq!(reply.to_string(), "0 | 0x1.0.0.notfound 0x1.0.0.entered");
    assert_eq!(window.get_tce(0x8000).result(), Ok(&[0x4001][..]));
    let read = window.read(0x8123);
    let machine = 0x20_0000_4123;
    assert_eq!(
        (read.outcome(), read.receipts().len()),
        (DeviceOutcome::At { machine }, 1)
    );
    assert_eq!(window.write(0x8123).outcome(), DeviceOutcome::Denied);
    assert_eq!(window.write(0xA000).outcome(), DeviceOutcome::NoWindow);
    let reply = window.put_tce(0x8000, 0x10_0001);
    assert_eq!(reply.result(), Err(Error::Parameter));
    assert!(window.put_tce(0x8000, 0).is_stale());
    for (base, pages) in [(0x7001, 3), (0x7000, 0), (0, 16_385), (1 << 60, 1)] {
        let refused = Window::new(base, pages, grants()).unwrap_err();
        assert_eq!(refused, WindowError::Range { base, pages });
    }
    assert!(Window::new((1 << 60) - 4096, 1, grants()).is_ok());
}
