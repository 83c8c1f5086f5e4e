//! Wrong forms of the search that come near the right one. For each it is counted how many valid
//! calls tell it from the right one, so that a library which had it would be noticed.

use super::call::Function;

#[derive(Clone, Copy, PartialEq)]
pub enum Form {
    Right,
    NoDiscount,
    DiscountKept,
    LaterInSquare,
    LaterOnLattice,
    LaterInDense,
    LaterInRing,
    ColumnsFirst,
    ColumnsFirstInRing,
    LatticeShifted,
    LatticeLonger,
    DenseAlways,
    DenseFixedColumns,
    DenseRowsAnew,
    DenseBeyondWindow,
    Unclamped,
    MovingCentre,
    QuarterAroundStart,
    DiscountInFour,
    SeedDown,
    SeedBeyondWindow,
    WithoutZero,
    LargeCopies,
}

use Form::*;

const ONE: &[(Form, &str)] = &[
    (NoDiscount, "no discount"),
    (DiscountKept, "discount in the reported sum"),
    (LaterInSquare, "later equal sum in the square"),
    (LaterOnLattice, "later equal sum on the lattice"),
    (LaterInDense, "later equal sum in the dense pass"),
    (LaterInRing, "later equal sum in a ring"),
    (ColumnsFirst, "square by columns"),
    (ColumnsFirstInRing, "rings by columns"),
    (LatticeShifted, "lattice from one place earlier"),
    (LatticeLonger, "lattice to one place later"),
    (DenseAlways, "dense pass without a lattice winner"),
    (DenseFixedColumns, "fixed columns in the dense pass"),
    (DenseRowsAnew, "rows taken anew in the dense pass"),
    (DenseBeyondWindow, "dense pass beyond the window"),
    (Unclamped, "no clamping"),
    (MovingCentre, "ring around a moving centre"),
    (QuarterAroundStart, "quarter ring around the start"),
];

const FOUR: &[(Form, &str)] = &[
    (DiscountInFour, "a discount"),
    (WithoutZero, "zero left out"),
    (SeedDown, "seed divided down"),
    (SeedBeyondWindow, "seed's places beyond the window"),
    (LaterInSquare, "later equal sum around the seed"),
    (LaterInRing, "later equal sum in a ring"),
    (ColumnsFirst, "seed's places by columns"),
    (ColumnsFirstInRing, "rings by columns"),
    (Unclamped, "no clamping"),
    (MovingCentre, "ring around a moving centre"),
    (QuarterAroundStart, "quarter ring around the start"),
    (LargeCopies, "16 x 16 copies"),
];

/// The wrong forms of a function, with what they do.
pub fn wrong(function: Function) -> &'static [(Form, &'static str)] {
    match function {
        Function::One => ONE,
        Function::Four => FOUR,
    }
}
