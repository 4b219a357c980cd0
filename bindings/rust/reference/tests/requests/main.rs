//! The change requests, sentence by sentence, through the public interface.

mod fixture;
#[path = "../common/layout.rs"]
mod layout;
mod r10;
mod r11;
mod r12;
mod r13;
mod r14;
mod r1_r2;
mod r3;
mod r4;
mod r5;
mod r6;
mod r7;
mod r8;
mod r9;
