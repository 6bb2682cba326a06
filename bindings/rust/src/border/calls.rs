//! The structs and calls of `ptree.h`, and all `unsafe` code of this crate.
//!
//! A call takes slices and references, and gives the library their pointers and lengths. So every pointer is aligned and never null, each
//! length is that of its slice, and what a call writes to overlaps nothing else. The library keeps no pointer, calls nothing back and has
//! no state.

// Structs as C lays them out.
macro_rules! structs {
    ($($name:ident { $($field:ident: $type:ty),* $(,)? })*) => {
        $(
            #[repr(C)]
            #[derive(Clone, Copy, Default)]
            pub(super) struct $name {
                $(pub(super) $field: $type,)*
            }
        )*
    };
}

// Calls by what they take.
macro_rules! calls {
    ($(fn $name:ident($($parameters:tt)*) -> $result:ty;)*) => {
        $(call! { $name -> $result; [$($parameters)*,] [] [] [] })*
    };
}

// A call: the parameters that are left, those so far, what C takes for them, and what it is given.
macro_rules! call {
    ($name:ident -> $result:ty; [$(,)?] [$($own:tt)*] [$($c:tt)*] [$($given:tt)*]) => {
        #[allow(clippy::too_many_arguments)]
        pub(super) fn $name($($own)*) -> $result {
            extern "C" {
                fn $name($($c)*) -> $result;
            }
            unsafe { $name($($given)*) }
        }
    };
    ($name:ident -> $result:ty; [$p:ident: &mut [$type:ty], $($left:tt)*] [$($own:tt)*] [$($c:tt)*] [$($given:tt)*]) => {
        call! { $name -> $result; [$($left)*] [$($own)* $p: &mut [$type],] [$($c)* _: *mut $type, _: usize,] [$($given)* $p.as_mut_ptr(), $p.len(),] }
    };
    ($name:ident -> $result:ty; [$p:ident: &[$type:ty], $($left:tt)*] [$($own:tt)*] [$($c:tt)*] [$($given:tt)*]) => {
        call! { $name -> $result; [$($left)*] [$($own)* $p: &[$type],] [$($c)* _: *const $type, _: usize,] [$($given)* $p.as_ptr(), $p.len(),] }
    };
    ($name:ident -> $result:ty; [$p:ident: &mut $type:ty, $($left:tt)*] [$($own:tt)*] [$($c:tt)*] [$($given:tt)*]) => {
        call! { $name -> $result; [$($left)*] [$($own)* $p: &mut $type,] [$($c)* _: *mut $type,] [$($given)* $p,] }
    };
    ($name:ident -> $result:ty; [$p:ident: &$type:ty, $($left:tt)*] [$($own:tt)*] [$($c:tt)*] [$($given:tt)*]) => {
        call! { $name -> $result; [$($left)*] [$($own)* $p: &$type,] [$($c)* _: *const $type,] [$($given)* $p,] }
    };
    ($name:ident -> $result:ty; [$p:ident: $type:ty, $($left:tt)*] [$($own:tt)*] [$($c:tt)*] [$($given:tt)*]) => {
        call! { $name -> $result; [$($left)*] [$($own)* $p: $type,] [$($c)* _: $type,] [$($given)* $p,] }
    };
}

structs! {
    Item { end: usize, level: u32 }
    Found { bytes: usize, items: usize, place: usize }
    Part { start: usize, end: usize }
    Variable { name: Part, value: Part }
    Step { text: Part, level: u32, is_last: u8 }
    Edge { source: usize, target: usize }
    ColorFields { kind: u32, red: u8, green: u8, blue: u8, name: Part }
    StyleFields {
        foreground: ColorFields, background: ColorFields,
        bold: u8, dimmed: u8, italic: u8, underline: u8, blink: u8, reverse: u8, hidden: u8, strikethrough: u8,
    }
    CharactersFields { down_and_right: Part, down: Part, turn_right: Part, right: Part, empty: Part }
    ConfigFields {
        depth: u32, styled: u32, indent: usize, padding: usize,
        characters: CharactersFields, branch: StyleFields, leaf: StyleFields, continued: Part,
    }
}

calls! {
    fn ptree_draw_steps(
        steps: &[Step], texts: &[u8], path: &mut [u8], config: &ConfigFields, names: &[u8], out: &mut [u8], found: &mut Found,
    ) -> u32;
    fn ptree_read_with(
        text: &[u8], config: &ConfigFields, names: &[u8], items: &mut [Item], texts: &mut [u8], found: &mut Found,
    ) -> u32;
    fn ptree_draw_document_with(
        text: &[u8], label: &[u8], format: u32, config: &ConfigFields, names: &[u8], out: &mut [u8], found: &mut Found,
    ) -> u32;
    fn ptree_draw_walks(
        ends: &[usize], texts: &[u8], edges: &[Edge], start: usize,
        config: &ConfigFields, names: &[u8], out: &mut [u8], found: &mut Found,
    ) -> u32;
    fn ptree_draw_once(
        ends: &[usize], texts: &[u8], edges: &[Edge], start: usize, mark: &[u8],
        config: &ConfigFields, names: &[u8], out: &mut [u8], found: &mut Found,
    ) -> u32;
    fn ptree_paint(text: &[u8], style: &StyleFields, names: &[u8], out: &mut [u8], found: &mut Found) -> u32;
    fn ptree_config(preset: u32, config: &mut ConfigFields, names: &mut [u8], found: &mut Found) -> u32;
    fn ptree_load(
        file: &[u8], format: u32, variables: &[Variable], texts: &[u8],
        config: &mut ConfigFields, names: &mut [u8], found: &mut Found,
    ) -> u32;
    fn ptree_faults(
        file: &[u8], format: u32, variables: &[Variable], texts: &[u8], out: &mut [u8], found: &mut Found,
    ) -> u32;
    fn ptree_refusal_text(refusal: u32, out: &mut [u8]) -> usize;
}
