yarrow-module 1
module order
parameter A : *
parameter le : A -> A -> *
define refl : * := @x:A. le x x
end
