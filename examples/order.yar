yarrow-module 1
module order

% A set of things with an order, and a function that leads upwards. All of it is assumed, as a theory of first order is.
assume thing : 'set
assume less : thing -> thing -> 'prop
assume up : thing -> thing
assume transitive : @x:thing. @y:thing. @z:thing. less x y -> less y z -> less x z
assume higher : @x:thing. less x (up x)
assume monotone : @x:thing. @y:thing. less x y -> less (up x) (up y)

% Falsehood is assumed as well: no proposition can speak of all propositions.
assume false : 'prop
assume irreflexive : @x:thing. less x x -> false

% A function of things is a definition like any other.
define twice : thing -> thing := \x:thing. up (up x)
define twice_higher : @x:thing. less x (twice x) := \x:thing. transitive x (up x) (twice x) (higher x) (higher (up x))
define twice_monotone : @x:thing. @y:thing. less x y -> less (twice x) (twice y) := \x:thing. \y:thing. \h:less x y. monotone (up x) (up y) (monotone x y h)

% So is a predicate. A top has nothing above it, and there is none.
define top : thing -> 'prop := \x:thing. @y:thing. less x y -> false
define no_top : @x:thing. top x -> false := \x:thing. \t:top x. t (up x) (higher x)
define asymmetric : @x:thing. @y:thing. less x y -> less y x -> false := \x:thing. \y:thing. \h:less x y. \k:less y x. irreflexive x (transitive x y x h k)
end
