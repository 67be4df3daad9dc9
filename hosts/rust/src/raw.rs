//! The functions of libhost.a, with slices in place of pointers and lengths. Each is total on any bytes and
//! asks nothing of its caller, so each wrapper is safe: a slice's pointer and length are its own, and a
//! mutable slice overlaps no other.

mod c {
    extern "C" {
        pub fn knellstone_start(settings: *const u8, settings_len: usize, out: *mut u8, out_len: usize) -> u64;
        pub fn knellstone_question(record: *const u8, record_len: usize, out: *mut u8, out_len: usize) -> u64;
        pub fn knellstone_answer_counts(
            record: *const u8, record_len: usize, counts: *const u8, counts_len: usize, out: *mut u8, out_len: usize,
        ) -> u64;
        pub fn knellstone_answer_score(record: *const u8, record_len: usize, bits: u64, out: *mut u8, out_len: usize) -> u64;
        pub fn knellstone_answers(
            record: *const u8, record_len: usize, list: *const u8, list_len: usize, out: *mut u8, out_len: usize,
        ) -> u64;
        pub fn knellstone_asked(record: *const u8, record_len: usize, out: *mut u8, out_len: usize) -> u64;
        pub fn knellstone_candidates(
            settings: *const u8, settings_len: usize, action: *const u8, action_len: usize, out: *mut u8, out_len: usize,
        ) -> u64;
        pub fn knellstone_equal(a: *const u8, a_len: usize, b: *const u8, b_len: usize) -> u64;
        pub fn knellstone_undo_split(record: *const u8, record_len: usize, out: *mut u8, out_len: usize) -> u64;
        pub fn knellstone_change_settings(
            record: *const u8, record_len: usize, settings: *const u8, settings_len: usize, out: *mut u8, out_len: usize,
        ) -> u64;
        pub fn knellstone_lookup(
            record: *const u8, record_len: usize, points: *const u8, points_len: usize, out: *mut u8, out_len: usize,
        ) -> u64;
        pub fn knellstone_lookup_replaced(
            record: *const u8, record_len: usize, leaf: u16, action: *const u8, action_len: usize, points: *const u8,
            points_len: usize, out: *mut u8, out_len: usize,
        ) -> u64;
        pub fn knellstone_lookup_tested(
            record: *const u8, record_len: usize, points: *const u8, points_len: usize, out: *mut u8, out_len: usize,
        ) -> u64;
        pub fn knellstone_ranges(
            record: *const u8, record_len: usize, ranges: *const u8, ranges_len: usize, out: *mut u8, out_len: usize,
        ) -> u64;
        pub fn knellstone_sender(mode: *const u8, mode_len: usize, out: *mut u8, out_len: usize) -> u64;
        pub fn knellstone_events(
            record: *const u8, record_len: usize, sender: *mut u8, sender_len: usize, events: *const u8,
            events_len: usize, out: *mut u8, out_len: usize,
        ) -> u64;
        pub fn knellstone_own_events(
            record: *const u8, record_len: usize, sender: *mut u8, sender_len: usize, generator: *mut u8,
            generator_len: usize, events: *const u8, events_len: usize, out: *mut u8, out_len: usize,
        ) -> u64;
        pub fn knellstone_step(generator: *mut u8, generator_len: usize, out: *mut u8, out_len: usize) -> u64;
        pub fn knellstone_step_back(generator: *mut u8, generator_len: usize) -> u64;
        pub fn knellstone_burst(
            record: *const u8, record_len: usize, sender: *mut u8, sender_len: usize, acks: *const u8, acks_len: usize,
            windows: *mut u8, windows_len: usize, clipped: *mut u8, clipped_len: usize,
        ) -> u64;
        pub fn knellstone_panel(input: *const u8, input_len: usize, out: *mut u8, out_len: usize) -> u64;
        pub fn knellstone_trace(input: *const u8, input_len: usize, out: *mut u8, out_len: usize) -> u64;
        pub fn knellstone_next_list(n: u32, list: *const u8, list_len: usize, out: *mut u8, out_len: usize) -> u64;
        pub fn knellstone_even_row(point: *const u8, point_len: usize) -> u64;
    }
}

pub fn start(settings: &[u8], out: &mut [u8]) -> u64 {
    unsafe { c::knellstone_start(settings.as_ptr(), settings.len(), out.as_mut_ptr(), out.len()) }
}

pub fn question(record: &[u8], out: &mut [u8]) -> u64 {
    unsafe { c::knellstone_question(record.as_ptr(), record.len(), out.as_mut_ptr(), out.len()) }
}

pub fn answer_counts(record: &[u8], counts: &[u8], out: &mut [u8]) -> u64 {
    unsafe {
        c::knellstone_answer_counts(
            record.as_ptr(), record.len(), counts.as_ptr(), counts.len(), out.as_mut_ptr(), out.len(),
        )
    }
}

pub fn answer_score(record: &[u8], bits: u64, out: &mut [u8]) -> u64 {
    unsafe { c::knellstone_answer_score(record.as_ptr(), record.len(), bits, out.as_mut_ptr(), out.len()) }
}

pub fn answers(record: &[u8], list: &[u8], out: &mut [u8]) -> u64 {
    unsafe {
        c::knellstone_answers(record.as_ptr(), record.len(), list.as_ptr(), list.len(), out.as_mut_ptr(), out.len())
    }
}

pub fn asked(record: &[u8], out: &mut [u8]) -> u64 {
    unsafe { c::knellstone_asked(record.as_ptr(), record.len(), out.as_mut_ptr(), out.len()) }
}

pub fn candidates(settings: &[u8], action: &[u8], out: &mut [u8]) -> u64 {
    unsafe {
        c::knellstone_candidates(
            settings.as_ptr(), settings.len(), action.as_ptr(), action.len(), out.as_mut_ptr(), out.len(),
        )
    }
}

pub fn equal(a: &[u8], b: &[u8]) -> u64 {
    unsafe { c::knellstone_equal(a.as_ptr(), a.len(), b.as_ptr(), b.len()) }
}

pub fn undo_split(record: &[u8], out: &mut [u8]) -> u64 {
    unsafe { c::knellstone_undo_split(record.as_ptr(), record.len(), out.as_mut_ptr(), out.len()) }
}

pub fn change_settings(record: &[u8], settings: &[u8], out: &mut [u8]) -> u64 {
    unsafe {
        c::knellstone_change_settings(
            record.as_ptr(), record.len(), settings.as_ptr(), settings.len(), out.as_mut_ptr(), out.len(),
        )
    }
}

pub fn lookup(record: &[u8], points: &[u8], out: &mut [u8]) -> u64 {
    unsafe {
        c::knellstone_lookup(record.as_ptr(), record.len(), points.as_ptr(), points.len(), out.as_mut_ptr(), out.len())
    }
}

pub fn lookup_replaced(record: &[u8], leaf: u16, action: &[u8], points: &[u8], out: &mut [u8]) -> u64 {
    unsafe {
        c::knellstone_lookup_replaced(
            record.as_ptr(), record.len(), leaf, action.as_ptr(), action.len(), points.as_ptr(), points.len(),
            out.as_mut_ptr(), out.len(),
        )
    }
}

pub fn lookup_tested(record: &[u8], points: &[u8], out: &mut [u8]) -> u64 {
    unsafe {
        c::knellstone_lookup_tested(
            record.as_ptr(), record.len(), points.as_ptr(), points.len(), out.as_mut_ptr(), out.len(),
        )
    }
}

pub fn ranges(record: &[u8], ranges: &[u8], out: &mut [u8]) -> u64 {
    unsafe {
        c::knellstone_ranges(record.as_ptr(), record.len(), ranges.as_ptr(), ranges.len(), out.as_mut_ptr(), out.len())
    }
}

pub fn sender(mode: &[u8], out: &mut [u8]) -> u64 {
    unsafe { c::knellstone_sender(mode.as_ptr(), mode.len(), out.as_mut_ptr(), out.len()) }
}

pub fn events(record: &[u8], sender: &mut [u8], events: &[u8], out: &mut [u8]) -> u64 {
    unsafe {
        c::knellstone_events(
            record.as_ptr(), record.len(), sender.as_mut_ptr(), sender.len(), events.as_ptr(), events.len(),
            out.as_mut_ptr(), out.len(),
        )
    }
}

pub fn own_events(record: &[u8], sender: &mut [u8], generator: &mut [u8], events: &[u8], out: &mut [u8]) -> u64 {
    unsafe {
        c::knellstone_own_events(
            record.as_ptr(), record.len(), sender.as_mut_ptr(), sender.len(), generator.as_mut_ptr(), generator.len(),
            events.as_ptr(), events.len(), out.as_mut_ptr(), out.len(),
        )
    }
}

pub fn burst(record: &[u8], sender: &mut [u8], acks: &[u8], windows: &mut [u8], clipped: &mut [u8]) -> u64 {
    unsafe {
        c::knellstone_burst(
            record.as_ptr(), record.len(), sender.as_mut_ptr(), sender.len(), acks.as_ptr(), acks.len(),
            windows.as_mut_ptr(), windows.len(), clipped.as_mut_ptr(), clipped.len(),
        )
    }
}

pub fn step(generator: &mut [u8], out: &mut [u8]) -> u64 {
    unsafe { c::knellstone_step(generator.as_mut_ptr(), generator.len(), out.as_mut_ptr(), out.len()) }
}

pub fn step_back(generator: &mut [u8]) -> u64 {
    unsafe { c::knellstone_step_back(generator.as_mut_ptr(), generator.len()) }
}

pub fn panel(input: &[u8], out: &mut [u8]) -> u64 {
    unsafe { c::knellstone_panel(input.as_ptr(), input.len(), out.as_mut_ptr(), out.len()) }
}

pub fn trace(input: &[u8], out: &mut [u8]) -> u64 {
    unsafe { c::knellstone_trace(input.as_ptr(), input.len(), out.as_mut_ptr(), out.len()) }
}

pub fn next_list(n: u32, list: &[u8], out: &mut [u8]) -> u64 {
    unsafe { c::knellstone_next_list(n, list.as_ptr(), list.len(), out.as_mut_ptr(), out.len()) }
}

pub fn even_row(point: &[u8]) -> u64 {
    unsafe { c::knellstone_even_row(point.as_ptr(), point.len()) }
}
