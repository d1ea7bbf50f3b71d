// A filter for two rules, in Rust: rustc -L FOLDER -l static=ccell library.rs
#[repr(C)]
#[derive(Clone, Copy, Default)]
struct Condition {
    argument: u32,
    operator: u32,
    value: u64,
    datum: u64,
}

#[repr(C)]
struct Rule {
    machine: u32,
    number: u32,
    action: u32,
    count: u32,
    conditions: [Condition; 6],
}

#[repr(C)]
#[derive(Default)]
struct Told {
    count: usize,
    first: usize,
    second: usize,
}

extern "C" {
    fn ccell_filter_for_rules(
        native: u32, default_action: u32, machines: *const u32, machines_count: usize, rules: *const Rule, rules_count: usize,
        out: *mut u8, room: usize, told: *mut Told,
    ) -> u32;
    fn ccell_verdict(filter: *const u8, filter_length: usize, record: *const u8, record_length: usize, verdict: *mut u32) -> u32;
}

const X86_64: u32 = 0xc000_003e;
const ALLOW: u32 = 0x7fff_0000;
const EPERM: u32 = 0x0005_0001;

fn main() {
    let mut conditions = [Condition::default(); 6];
    conditions[0] = Condition { argument: 0, operator: 4, value: 1, datum: 0 };
    let rules = [
        Rule { machine: X86_64, number: 1, action: ALLOW, count: 1, conditions },
        Rule { machine: X86_64, number: 231, action: ALLOW, count: 0, conditions: [Condition::default(); 6] },
    ];
    let machines = [X86_64];
    let (mut filter, mut told) = ([0u8; 32768], Told::default());
    // Each pointer is to as many values as the number behind it says, and `out` overlaps nothing else.
    let status = unsafe {
        ccell_filter_for_rules(X86_64, EPERM, machines.as_ptr(), 1, rules.as_ptr(), rules.len(), filter.as_mut_ptr(), filter.len(), &mut told)
    };
    println!("status {status}");
    for (call, argument) in [(1u32, 1u64), (1, 2), (231, 0)] {
        let mut record = [0u8; 64];
        record[..4].copy_from_slice(&call.to_le_bytes());
        record[4..8].copy_from_slice(&X86_64.to_le_bytes());
        record[16..24].copy_from_slice(&argument.to_le_bytes());
        let mut verdict = 0;
        unsafe { ccell_verdict(filter.as_ptr(), told.count, record.as_ptr(), 64, &mut verdict) };
        println!("{call} {argument} {verdict:#x}");
    }
}
