//! What ndarray 0.17.2 answers of arguments on two to four axes, with new axes and indices.

use super::calls::answer;
use crate::table::assert_rows;

#[test]
fn answers_of_ndarray() {
    assert_rows(ANSWERED, answer);
}

/// 51 pairs of arguments, of which 24 intersect, on shapes of two to four axes with up to 12 coordinates. Each answer
/// is what ndarray's own function gives at its type of any number of axes, called by a program over ndarray's sources.
const ANSWERED: &str = "\
slices_intersect Ix2 3,1 ..1;-1,..;2 ..1,0 => intersect
slices_intersect IxDyn 1,12 NewAxis,0,..-1;-1 0..;-1,-5..;2 => intersect
slices_intersect Ix2 1,5 -1..;3,2 ..1;3,2 => intersect
slices_intersect IxDyn 2,2 -1,..-1;3 -1..,..1;-4 => intersect
slices_intersect Ix2 9,6 ..-1;2,-6 ..;-3,..;3 => intersect
slices_intersect IxDyn 7,6 ..;3,1..;-1 -1..,3 => intersect
slices_intersect Ix2 3,2 0..;-3,..2;3 0..;-4,..2;2 => intersect
slices_intersect IxDyn 8,12 -5..4;-1,..3,NewAxis 3..;2,NewAxis,NewAxis,..6,NewAxis => intersect
slices_intersect Ix2 8,2 ..-7;2,1 -8..;-2,1..;4 => apart
slices_intersect IxDyn 4,8 1..;-4,..;4 -1,-7..5;2 => apart
slices_intersect Ix2 8,8 ..5;-3,-8..;-2 ..4;3,2..-3;2 => apart
slices_intersect IxDyn 1,4 NewAxis,0..;2,NewAxis,-3..;3 ..;-3,..;2 => apart
slices_intersect Ix2 3,2 1..2;-2,..;2,NewAxis -2..;3,NewAxis,1..;3 => apart
slices_intersect IxDyn 7,4 -6..;3,..4;2 ..3;-2,.. => apart
slices_intersect Ix2 5,12 ..,4..12;2 ..-2;-2,..-10;2 => apart
slices_intersect IxDyn 2,5 -1..-1;3,..5;-1,NewAxis ..1;-2,NewAxis,-4..;-1 => apart
slices_intersect Ix2 12,6 6..-2,3 ..-7;-4,..-1;-3 => apart
slices_intersect Ix3 5,12,6 -5..,NewAxis,11,-5..;-1 NewAxis,-5,5..;3,-5,NewAxis => intersect
slices_intersect IxDyn 2,2,2 0..1,-2..-1;-1,..2;3 NewAxis,..;2,-2..2;-1,..;-1,NewAxis => intersect
slices_intersect Ix3 9,9,5 ..-4,5,.. ..-2;3,-6..;2,0..4 => intersect
slices_intersect IxDyn 1,5,9 -1..1;3,..4;3,-9 NewAxis,0..1,NewAxis,..;-1,..;-4 => intersect
slices_intersect Ix3 2,3,7 ..-1;-2,-3..,-5..-4;-1 -2,-3..,..-1;2,NewAxis => intersect
slices_intersect IxDyn 7,12,1 NewAxis,2..-3,..-1,..;3 ..4;2,..8,NewAxis,-1..1;-4,NewAxis => intersect
slices_intersect Ix3 4,4,3 2..;3,-4..-1;-2,..-1;-1 2..4;3,0..4;2,..;2 => intersect
slices_intersect IxDyn 8,9,12 -7..;3,4..;2,NewAxis,..;-1 NewAxis,0..;-1,-1..9;4,..;2 => intersect
slices_intersect Ix3 4,8,4 0..;-2,..7,..-3;-3 2..3;4,..-4;-1,..2;4 => apart
slices_intersect IxDyn 6,5,8 -6,..5;-2,7..8;2 ..;2,..,..;3,NewAxis => apart
slices_intersect Ix3 9,2,2 2,0..2;-3,..1;-3 -9..;-2,1,0..;-4 => apart
slices_intersect IxDyn 8,5,8 0,NewAxis,0..4;4,..-2;-3 ..-3,2..;-2,-6 => apart
slices_intersect Ix3 5,8,8 -4..;2,2,..;-3,NewAxis ..2;2,..;3,3..-2;2 => apart
slices_intersect IxDyn 12,5,9 ..-9;-2,..;2,-6..-2;2 NewAxis,0..;-3,-4,5..8;4,NewAxis => apart
slices_intersect Ix3 9,9,6 -4,-4,-4..;3 -5,-8..9;2,NewAxis,-6..-2;3 => apart
slices_intersect IxDyn 8,4,6 ..7;3,2,NewAxis,..;-3 NewAxis,-2..,-1..;2,3..;3 => apart
slices_intersect Ix3 6,7,9 5..6;3,..5,NewAxis,0..8;-1 ..-2;-2,-6,..;4 => apart
slices_intersect Ix4 8,12,5,8 -8..4,..;3,..;-1,7..;3,NewAxis 1..-6;-4,-9..10;-4,4..;2,..;-1 => intersect
slices_intersect IxDyn 4,2,7,6 -4..;3,..2;3,NewAxis,0,..4;-1 -3..;-1,0,0..3;2,NewAxis,1 => intersect
slices_intersect Ix4 12,7,4,4 -12..3;2,..-5,1..4;-1,3 ..7,..;-1,-3,-1.. => intersect
slices_intersect IxDyn 6,2,1,6 0..;2,1,NewAxis,-1,-2 1..,-1,..1;3,-2 => intersect
slices_intersect Ix4 2,12,4,1 -1,..-3;3,-4..,0..1;-2 -1..2,-6,-2..;-4,0..1;-2 => intersect
slices_intersect IxDyn 9,7,2,1 ..;4,-4..;-3,1..2;4,..;3 NewAxis,3..7;-2,-7..;-3,NewAxis,-1..2;2,-1 => intersect
slices_intersect Ix4 3,1,4,3 -1..;-3,-1..1;-1,1..3,1..-1;2 ..,0..1;-2,2..4;4,..2;-4 => intersect
slices_intersect IxDyn 4,4,9,8 ..,..3;2,..-1;4,..4 0..3,2,..-1;3,NewAxis,..3;3 => intersect
slices_intersect Ix4 3,6,1,7 -2..;-2,-6..-3;3,-1..,..-2;-2 ..;4,NewAxis,NewAxis,1..5;-4,..;4,..-6;2 => apart
slices_intersect IxDyn 8,12,2,5 ..;3,..5;-1,-2..2;4,..-2;3 6..8,..;2,..2;3,..-2;-4 => apart
slices_intersect Ix4 1,3,4,7 NewAxis,-1..;3,0..1;-1,-2..;3,NewAxis,..;2 -1..1;4,0..-2;2,..3,3..6;3 => apart
slices_intersect IxDyn 3,5,7,8 ..;4,2..;-1,0..;-4,..,NewAxis -2,..3;-2,..-4;-2,0 => apart
slices_intersect Ix4 4,12,6,7 ..3,3..;-1,-3..4;3,NewAxis,-7..7;-4 ..4;2,6..10;-1,NewAxis,1..5,-3..;4 => apart
slices_intersect IxDyn 3,7,3,6 1..3;-2,..;4,NewAxis,-3..3;-2,0,NewAxis 0..-1,..-2;-3,-1..,NewAxis,-6 => apart
slices_intersect Ix4 2,9,3,8 1,4..;4,..1,-7..2;2 ..-2;-4,8..;2,0..,2..-5 => apart
slices_intersect IxDyn 2,8,8,4 0,-8..;-1,..3;4,2 NewAxis,-1..;2,3..,NewAxis,-8..;-2,4..1 => apart
slices_intersect Ix4 4,8,8,8 -4,0..3,NewAxis,-2,NewAxis,7 ..3;3,0..4;-1,7..-1;2,-3..6 => apart";
