//! The C calls, and beside each a safe one. All unsafe code of the crate is here.
//!
//! Each call is sound because a slice gives a pointer that is never null, lies as its type wants and has the length said; because a `&mut`
//! overlaps no other argument; and because the calls keep no pointer. `include/plavdrosa.h` says the same of C's callers.

use crate::message::Span;

unsafe extern "C" {
    fn plavdrosa_respond(
        table: *mut u8,
        table_len: usize,
        message: *const u8,
        message_len: usize,
        out: *mut u8,
        out_len: usize,
        written: *mut usize,
    ) -> u8;
    fn plavdrosa_turn(
        table: *mut u8,
        table_len: usize,
        line: *mut u8,
        line_len: usize,
        kept: *mut usize,
        piece: *const u8,
        piece_len: usize,
        out: *mut u8,
        out_len: usize,
        used: *mut usize,
        written: *mut usize,
    ) -> u8;
    fn plavdrosa_finish(
        table: *mut u8,
        table_len: usize,
        line: *const u8,
        line_len: usize,
        kept: usize,
        out: *mut u8,
        out_len: usize,
        written: *mut usize,
    ) -> u8;
    fn plavdrosa_text_row(bytes: *const u8, bytes_len: usize) -> u8;
    fn plavdrosa_message_row(bytes: *const u8, bytes_len: usize, offset: *mut usize) -> u8;
    fn plavdrosa_read(bytes: *const u8, bytes_len: usize, out: *mut u64, out_len: usize, offset: *mut usize) -> u8;
    fn plavdrosa_serialise(
        bytes: *const u8,
        bytes_len: usize,
        event: *const u64,
        event_len: usize,
        out: *mut u8,
        out_len: usize,
        len: *mut usize,
    ) -> u8;
    fn plavdrosa_read_text(bytes: *const u8, bytes_len: usize, out: *mut u64, out_len: usize) -> u8;
    fn plavdrosa_id(
        bytes: *const u8,
        bytes_len: usize,
        event: *const u64,
        event_len: usize,
        out: *mut u8,
        out_len: usize,
    ) -> u8;
    fn plavdrosa_digest(bytes: *const u8, bytes_len: usize, out: *mut u8, out_len: usize) -> u8;
    fn plavdrosa_digest_start(state: *mut u8, state_len: usize) -> u8;
    fn plavdrosa_digest_update(state: *mut u8, state_len: usize, bytes: *const u8, bytes_len: usize) -> u8;
    fn plavdrosa_digest_finish(state: *const u8, state_len: usize, out: *mut u8, out_len: usize) -> u8;
    fn plavdrosa_class(kind: u16) -> u8;
    fn plavdrosa_format(table: *mut u8, table_len: usize, capacity: usize) -> u8;
    fn plavdrosa_sound(table: *const u8, table_len: usize) -> u8;
    fn plavdrosa_offer(
        table: *mut u8,
        table_len: usize,
        message: *const u8,
        message_len: usize,
        offset: *mut usize,
    ) -> u8;
    fn plavdrosa_offer_parts(
        table: *mut u8,
        table_len: usize,
        bytes: *const u8,
        bytes_len: usize,
        event: *const u64,
        event_len: usize,
    ) -> u8;
    fn plavdrosa_judge(
        table: *const u8,
        table_len: usize,
        message: *const u8,
        message_len: usize,
        offset: *mut usize,
    ) -> u8;
    fn plavdrosa_show(table: *const u8, table_len: usize, slot: usize, place: *mut usize, len: *mut usize) -> u8;
    fn plavdrosa_match(
        bytes: *const u8,
        bytes_len: usize,
        event: *const u64,
        event_len: usize,
        message: *const u8,
        message_len: usize,
        request: *const u64,
        request_len: usize,
    ) -> u8;
    fn plavdrosa_list(
        table: *const u8,
        table_len: usize,
        message: *const u8,
        message_len: usize,
        request: *const u64,
        request_len: usize,
        row: *mut u16,
        row_len: usize,
        count: *mut usize,
    ) -> u8;
    fn plavdrosa_refused(
        message: *const u8,
        message_len: usize,
        row: u8,
        out: *mut u8,
        out_len: usize,
        written: *mut usize,
    ) -> u8;
    fn plavdrosa_slot_event(
        table: *const u8,
        table_len: usize,
        slot: usize,
        message: *const u8,
        message_len: usize,
        subscription: usize,
        subscription_len: usize,
        out: *mut u8,
        out_len: usize,
        written: *mut usize,
    ) -> u8;
    fn plavdrosa_events(
        table: *const u8,
        table_len: usize,
        slots: *const u16,
        slots_len: usize,
        message: *const u8,
        message_len: usize,
        subscription: usize,
        subscription_len: usize,
        out: *mut u8,
        out_len: usize,
        written: *mut usize,
        sent: *mut usize,
    ) -> u8;
    fn plavdrosa_reply(
        bytes: *const u8,
        bytes_len: usize,
        reply: *const u64,
        reply_len: usize,
        out: *mut u8,
        out_len: usize,
        written: *mut usize,
    ) -> u8;
}

pub(crate) fn respond(table: &mut [u8], message: &[u8], out: &mut [u8], written: &mut usize) -> u8 {
    unsafe {
        plavdrosa_respond(
            table.as_mut_ptr(),
            table.len(),
            message.as_ptr(),
            message.len(),
            out.as_mut_ptr(),
            out.len(),
            written,
        )
    }
}

pub(crate) fn turn(
    table: &mut [u8],
    line: &mut [u8],
    kept: &mut usize,
    piece: &[u8],
    out: &mut [u8],
    used: &mut usize,
    written: &mut usize,
) -> u8 {
    unsafe {
        plavdrosa_turn(
            table.as_mut_ptr(),
            table.len(),
            line.as_mut_ptr(),
            line.len(),
            kept,
            piece.as_ptr(),
            piece.len(),
            out.as_mut_ptr(),
            out.len(),
            used,
            written,
        )
    }
}

pub(crate) fn finish(table: &mut [u8], line: &[u8], kept: usize, out: &mut [u8], written: &mut usize) -> u8 {
    unsafe {
        plavdrosa_finish(
            table.as_mut_ptr(),
            table.len(),
            line.as_ptr(),
            line.len(),
            kept,
            out.as_mut_ptr(),
            out.len(),
            written,
        )
    }
}

pub(crate) fn text_row(bytes: &[u8]) -> u8 {
    unsafe { plavdrosa_text_row(bytes.as_ptr(), bytes.len()) }
}

pub(crate) fn message_row(bytes: &[u8], offset: &mut usize) -> u8 {
    unsafe { plavdrosa_message_row(bytes.as_ptr(), bytes.len(), offset) }
}

pub(crate) fn read(bytes: &[u8], out: &mut [u64], offset: &mut usize) -> u8 {
    unsafe { plavdrosa_read(bytes.as_ptr(), bytes.len(), out.as_mut_ptr(), out.len(), offset) }
}

pub(crate) fn serialise(bytes: &[u8], event: &[u64], out: &mut [u8], written: &mut usize) -> u8 {
    unsafe {
        plavdrosa_serialise(
            bytes.as_ptr(),
            bytes.len(),
            event.as_ptr(),
            event.len(),
            out.as_mut_ptr(),
            out.len(),
            written,
        )
    }
}

pub(crate) fn read_text(bytes: &[u8], out: &mut [u64]) -> u8 {
    unsafe { plavdrosa_read_text(bytes.as_ptr(), bytes.len(), out.as_mut_ptr(), out.len()) }
}

pub(crate) fn id(bytes: &[u8], event: &[u64], out: &mut [u8]) -> u8 {
    unsafe {
        plavdrosa_id(
            bytes.as_ptr(),
            bytes.len(),
            event.as_ptr(),
            event.len(),
            out.as_mut_ptr(),
            out.len(),
        )
    }
}

pub(crate) fn digest(bytes: &[u8], out: &mut [u8]) -> u8 {
    unsafe { plavdrosa_digest(bytes.as_ptr(), bytes.len(), out.as_mut_ptr(), out.len()) }
}

pub(crate) fn digest_start(state: &mut [u8]) -> u8 {
    unsafe { plavdrosa_digest_start(state.as_mut_ptr(), state.len()) }
}

pub(crate) fn digest_update(state: &mut [u8], bytes: &[u8]) -> u8 {
    unsafe { plavdrosa_digest_update(state.as_mut_ptr(), state.len(), bytes.as_ptr(), bytes.len()) }
}

pub(crate) fn digest_finish(state: &[u8], out: &mut [u8]) -> u8 {
    unsafe { plavdrosa_digest_finish(state.as_ptr(), state.len(), out.as_mut_ptr(), out.len()) }
}

pub(crate) fn class(kind: u16) -> u8 {
    unsafe { plavdrosa_class(kind) }
}

pub(crate) fn format(table: &mut [u8], capacity: usize) -> u8 {
    unsafe { plavdrosa_format(table.as_mut_ptr(), table.len(), capacity) }
}

pub(crate) fn sound(table: &[u8]) -> u8 {
    unsafe { plavdrosa_sound(table.as_ptr(), table.len()) }
}

pub(crate) fn offer(table: &mut [u8], message: &[u8], offset: &mut usize) -> u8 {
    unsafe { plavdrosa_offer(table.as_mut_ptr(), table.len(), message.as_ptr(), message.len(), offset) }
}

pub(crate) fn offer_parts(table: &mut [u8], bytes: &[u8], event: &[u64]) -> u8 {
    unsafe {
        plavdrosa_offer_parts(
            table.as_mut_ptr(),
            table.len(),
            bytes.as_ptr(),
            bytes.len(),
            event.as_ptr(),
            event.len(),
        )
    }
}

pub(crate) fn judge(table: &[u8], message: &[u8], offset: &mut usize) -> u8 {
    unsafe { plavdrosa_judge(table.as_ptr(), table.len(), message.as_ptr(), message.len(), offset) }
}

pub(crate) fn show(table: &[u8], slot: usize, place: &mut usize, len: &mut usize) -> u8 {
    unsafe { plavdrosa_show(table.as_ptr(), table.len(), slot, place, len) }
}

pub(crate) fn matches(bytes: &[u8], event: &[u64], message: &[u8], request: &[u64]) -> u8 {
    unsafe {
        plavdrosa_match(
            bytes.as_ptr(),
            bytes.len(),
            event.as_ptr(),
            event.len(),
            message.as_ptr(),
            message.len(),
            request.as_ptr(),
            request.len(),
        )
    }
}

pub(crate) fn list(table: &[u8], message: &[u8], request: &[u64], row: &mut [u16], count: &mut usize) -> u8 {
    unsafe {
        plavdrosa_list(
            table.as_ptr(),
            table.len(),
            message.as_ptr(),
            message.len(),
            request.as_ptr(),
            request.len(),
            row.as_mut_ptr(),
            row.len(),
            count,
        )
    }
}

pub(crate) fn refused(message: &[u8], row: u8, out: &mut [u8], written: &mut usize) -> u8 {
    unsafe {
        plavdrosa_refused(
            message.as_ptr(),
            message.len(),
            row,
            out.as_mut_ptr(),
            out.len(),
            written,
        )
    }
}

pub(crate) fn slot_event(
    table: &[u8],
    slot: usize,
    message: &[u8],
    subscription: Span,
    out: &mut [u8],
    written: &mut usize,
) -> u8 {
    unsafe {
        plavdrosa_slot_event(
            table.as_ptr(),
            table.len(),
            slot,
            message.as_ptr(),
            message.len(),
            subscription.start,
            subscription.len,
            out.as_mut_ptr(),
            out.len(),
            written,
        )
    }
}

pub(crate) fn events(
    table: &[u8],
    slots: &[u16],
    message: &[u8],
    subscription: Span,
    out: &mut [u8],
    written: &mut usize,
    sent: &mut usize,
) -> u8 {
    unsafe {
        plavdrosa_events(
            table.as_ptr(),
            table.len(),
            slots.as_ptr(),
            slots.len(),
            message.as_ptr(),
            message.len(),
            subscription.start,
            subscription.len,
            out.as_mut_ptr(),
            out.len(),
            written,
            sent,
        )
    }
}

pub(crate) fn reply(bytes: &[u8], parts: &[u64], out: &mut [u8], written: &mut usize) -> u8 {
    unsafe {
        plavdrosa_reply(
            bytes.as_ptr(),
            bytes.len(),
            parts.as_ptr(),
            parts.len(),
            out.as_mut_ptr(),
            out.len(),
            written,
        )
    }
}
