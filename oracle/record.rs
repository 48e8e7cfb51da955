// The records that go into a call and come back: their numbers by name, and the answers' shapes.

use crate::sample::Numbers;
use crate::value::Value;

/// One number of a record, or a setting that stands beside it in a call.
#[derive(Clone, Copy)]
pub enum Part {
    Single(f32),
    Double(f64),
    Whole(usize),
    Flag(bool),
}

impl Part {
    pub fn finite(self) -> bool {
        match self {
            Part::Single(x) => x.is_finite(),
            Part::Double(x) => x.is_finite(),
            Part::Whole(_) | Part::Flag(_) => true,
        }
    }

    /// The same kind of number, as a record of zeros has it.
    pub fn zero(self) -> Part {
        match self {
            Part::Single(_) => Part::Single(0.0),
            Part::Double(_) => Part::Double(0.0),
            Part::Whole(_) => Part::Whole(0),
            Part::Flag(_) => Part::Flag(false),
        }
    }
}

impl Value for Part {
    fn same(self, other: Part) -> bool {
        match (self, other) {
            (Part::Single(a), Part::Single(b)) => a.same(b),
            (Part::Double(a), Part::Double(b)) => a.same(b),
            (Part::Whole(a), Part::Whole(b)) => a.same(b),
            (Part::Flag(a), Part::Flag(b)) => a.same(b),
            _ => false,
        }
    }
    fn shown(self) -> String {
        match self {
            Part::Single(x) => x.shown(),
            Part::Double(x) => x.shown(),
            Part::Whole(x) => x.to_string(),
            Part::Flag(x) => x.shown(),
        }
    }
    fn put(self, numbers: &mut Numbers) {
        match self {
            Part::Single(x) => x.put(numbers),
            Part::Double(x) => x.put(numbers),
            Part::Whole(x) => x.put(numbers),
            Part::Flag(x) => x.put(numbers),
        }
    }
    fn off(self) -> Part {
        match self {
            Part::Single(x) => Part::Single(x.off()),
            Part::Double(x) => Part::Double(x.off()),
            Part::Whole(x) => Part::Whole(x.off()),
            Part::Flag(x) => Part::Flag(x.off()),
        }
    }
}

macro_rules! parts {
    ($($kind:ty: $part:ident),+) => {
        $(impl From<$kind> for Part {
            fn from(x: $kind) -> Part {
                Part::$part(x)
            }
        })+
    };
}

parts!(f32: Single, f64: Double, usize: Whole, bool: Flag);

#[derive(Clone, Copy)]
pub struct Field {
    pub name: &'static str,
    pub part: Part,
}

impl Field {
    pub fn new(name: &'static str, part: impl Into<Part>) -> Field {
        let part = part.into();
        Field { name, part }
    }

    pub fn shown(&self) -> String {
        format!("{} {}", self.name, self.part.shown())
    }
}

/// Variables as fields of their names.
macro_rules! fields {
    ($($name:ident),*) => {
        vec![$($crate::record::Field::new(stringify!($name), $name)),*]
    };
}
pub(crate) use fields;

/// A state; its default is the record of zeros.
pub trait Record: Copy + Default {
    fn fields(self) -> Vec<Field>;
    /// Whether every float of it is.
    fn finite(self) -> bool;
}

/// A state as the library has it, and, where the original's struct has the same fields and no
/// other, the way there and back.
macro_rules! record {
    ($name:ident = $original:ty { $($field:ident: $kind:ty),+ }) => {
        $crate::record::record!($name { $($field: $kind),+ });
        impl From<$name> for $original {
            fn from(state: $name) -> $original {
                Self { $($field: state.$field),+ }
            }
        }
        impl From<$original> for $name {
            fn from(state: $original) -> $name {
                Self { $($field: state.$field),+ }
            }
        }
    };
    ($name:ident { $($field:ident: $kind:ty),+ }) => {
        #[repr(C)]
        #[derive(Clone, Copy, Default)]
        pub struct $name {
            $(pub $field: $kind),+
        }
        impl $crate::record::Record for $name {
            fn fields(self) -> Vec<$crate::record::Field> {
                vec![$($crate::record::Field::new(stringify!($field), self.$field)),+]
            }
            fn finite(self) -> bool {
                [$($crate::record::Part::from(self.$field)),+].iter().all(|part| part.finite())
            }
        }
    };
}
pub(crate) use record;

/// What a call answers: the number, the state's fields, the counts.
pub struct Answer {
    pub refusal: u32,
    pub state: Vec<Field>,
    pub counts: Vec<Field>,
}

impl From<u32> for Answer {
    fn from(refusal: u32) -> Answer {
        let (state, counts) = (vec![], vec![]);
        Answer {
            refusal,
            state,
            counts,
        }
    }
}

/// A stage's answer: the number, the state, and the counts that the stage has.
macro_rules! shapes {
    ($($shape:ident { $($count:ident),* })+) => {
        $(#[repr(C)]
        #[derive(Clone, Copy)]
        pub struct $shape<S> {
            pub refusal: u32,
            pub state: S,
            $(pub $count: usize),*
        }
        impl<S: Record> From<$shape<S>> for Answer {
            fn from(answer: $shape<S>) -> Answer {
                Answer {
                    refusal: answer.refusal,
                    state: answer.state.fields(),
                    counts: vec![$(Field::new(stringify!($count), answer.$count)),*],
                }
            }
        })+
    };
}

shapes! {
    Stated {}
    Counted { count }
    Striking { struck }
    CountedStriking { count, struck }
}
