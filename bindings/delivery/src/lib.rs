//! Whether the modules of a delivery stand behind those that they need. The work is done by a proved static library; this crate calls it.
//!
//! ```
//! use delivery::{Order, deliver, order};
//!
//! let mut work = [0; 65_536];
//! // sheets without a byte stand for no script
//! let bytes = deliver(&[(b"./frame.js", b""), (b"./units.js", b"")]);
//! assert_eq!(order(&bytes, &mut work), Order::InOrder);
//! let twice = deliver(&[(b"./frame.js", b""), (b"./frame.js", b"")]);
//! assert_eq!(order(&twice, &mut work), Order::Refused { number: 12, module: 0 });
//! assert_eq!(order(b"", &mut work), Order::Refused { number: 11, module: 0 });
//! ```

/// The longest delivery that is not refused, in bytes, and how many modules it has at most.
pub const MAX_BYTES: usize = 65_536;
pub const MAX_MODULES: usize = 64;

unsafe extern "C" {
    /// A number, and 256 times the module's index, and 65,536 times the entry's.
    fn delivery_order(delivery: *const u8, n: usize, work: *mut u8, m: usize) -> u64;
}

/// Modules are counted from 0, and so are the entries of a module's report, dynamic ones too.
#[derive(Debug, Clone, Copy, PartialEq, Eq, PartialOrd, Ord, Hash)]
pub enum Order {
    InOrder,
    /// The first entry, in delivery order, that needs what is no module before its own.
    NotInOrder {
        module: usize,
        entry: usize,
    },
    /// 11 for what is no delivery, 12 for a name that occurs twice, both with module 0; any other is the refusal of that module's sheet.
    Refused {
        number: u8,
        module: usize,
    },
}

/// Each report is made in `work`, of which every byte is zero then.
pub fn order(delivery: &[u8], work: &mut [u8]) -> Order {
    // SAFETY: each pointer has as many bytes as its length says, and the two do not overlap.
    let answer = unsafe { delivery_order(delivery.as_ptr(), delivery.len(), work.as_mut_ptr(), work.len()) };
    let (module, entry) = ((answer >> 8) as usize & 0xFF, (answer >> 16) as usize);
    match answer & 0xFF {
        0 => Order::InOrder,
        255 => Order::NotInOrder { module, entry },
        number => Order::Refused { number: number as u8, module },
    }
}

/// The delivery of modules, each a name and a sheet.
pub fn deliver(modules: &[(&[u8], &[u8])]) -> Vec<u8> {
    let mut out = Vec::new();
    put_number(&mut out, modules.len());
    for (name, sheet) in modules {
        for bytes in [name, sheet] {
            put_number(&mut out, bytes.len());
            out.extend_from_slice(bytes);
        }
    }
    out
}

/// Groups of seven bits, low group first.
fn put_number(out: &mut Vec<u8>, mut n: usize) {
    while n >= 128 {
        out.push(0x80 | (n & 0x7F) as u8);
        n >>= 7;
    }
    out.push(n as u8);
}
