//! The nine calls, the check of a whole page, and the calls by virtual address, as values that either side makes. Arguments go through
//! `black_box` one by one: a side gets them as any caller passes them, each for itself, and can't know anything about them.

use std::hint::black_box;

use crate::told::Tell;

/// A call with its arguments.
pub trait Call: Copy {
    /// What the library answers, through its Rust bindings.
    type Ours: Tell;
    /// What the second implementation answers.
    type Second: Tell;

    /// Made by the proved library, through its Rust bindings.
    fn ours(self, table: &mut [u64], memory: &mut [u64]) -> Self::Ours;

    /// Made by the second implementation, safe Rust.
    fn second(self, table: &mut [u64], memory: &mut [u64]) -> Self::Second;

    /// Made by nobody: the arguments are read, and that is all.
    fn nobody(self);
}

/// What the bindings answer.
pub type Answered<Answer = skorbilek::Answer> = Result<Answer, skorbilek::Refusal>;

/// A struct with the arguments of a call, all of them numbers. Both sides have the function by the same name and in the same order. Behind
/// the arrow is what they answer, ours first, where it is not an answer of the nine calls.
macro_rules! call {
    ($name:ident = $function:ident($($argument:ident),+)) => {
        call!($name = $function($($argument),+) -> Answered, second::Answer);
    };
    ($name:ident = $function:ident($($argument:ident),+) -> $ours:ty, $second:ty) => {
        #[derive(Clone, Copy)]
        pub struct $name {
            $(pub $argument: u64),+
        }

        impl Call for $name {
            type Ours = $ours;
            type Second = $second;

            #[inline(always)]
            fn ours(self, table: &mut [u64], memory: &mut [u64]) -> $ours {
                skorbilek::$function(table, memory, $(black_box(self.$argument)),+)
            }

            #[inline(always)]
            fn second(self, table: &mut [u64], memory: &mut [u64]) -> $second {
                second::$function(table, memory, $(black_box(self.$argument)),+)
            }

            #[inline(always)]
            fn nobody(self) {
                $(black_box(self.$argument);)+
            }
        }
    };
}

/// A call by virtual address: what it takes beside that address.
macro_rules! by_address {
    ($name:ident = $function:ident($($argument:ident),+)) => {
        call!($name = $function(caller, root, root_type, host_root, va, $($argument),+)
            -> Answered<skorbilek::Reached>, second::Reached);
    };
}

call!(Rmpupdate = rmpupdate(caller, hpa, gpa, asid, kind));
call!(Pvalidate = pvalidate(caller, gpa, hpa, kind));
call!(Pfix = pfix(caller, hpa, leaf));
call!(Pmerge = pmerge(caller, hpa1, hpa2));
call!(Punmerge = punmerge(caller, hpa1, hpa2, asid));
call!(Punfix = punfix(caller, hpa));
call!(Read = read(caller, gpa, hpa, gtype, ntype, index));
call!(Write = write(caller, gpa, hpa, gtype, ntype, index, value));
call!(Census = census(asid));
call!(PageCheck = page_check(caller, gpa, hpa));
call!(Walk = walk(caller, root, root_type, host_root, va)
    -> Answered<skorbilek::Mapping>, Result<second::Mapping, second::Refusal>);
by_address!(PvalidateVa = pvalidate_va(kind));
by_address!(ReadVa = read_va(index));
by_address!(WriteVa = write_va(index, value));
