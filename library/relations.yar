yarrow-module 1
module relations
uses logic
uses quantifiers
uses equality

% A relation on a type A is of the type A -> A -> *. Here R x y reads: x is in the relation R to y.
define reflexive : @A:*. (A -> A -> *) -> * := \A:*. \R:A -> A -> *. @x:A. R x x
define symmetric : @A:*. (A -> A -> *) -> * := \A:*. \R:A -> A -> *. @x:A. @y:A. R x y -> R y x
define transitive : @A:*. (A -> A -> *) -> * := \A:*. \R:A -> A -> *. @x:A. @y:A. @z:A. R x y -> R y z -> R x z
define antisymmetric : @A:*. (A -> A -> *) -> * := \A:*. \R:A -> A -> *. @x:A. @y:A. R x y -> R y x -> equality.eq A x y
define irreflexive : @A:*. (A -> A -> *) -> * := \A:*. \R:A -> A -> *. @x:A. logic.not (R x x)
define equivalence : @A:*. (A -> A -> *) -> * := \A:*. \R:A -> A -> *. logic.and (reflexive A R) (logic.and (symmetric A R) (transitive A R))

% Relations among relations, and made of relations.
define includes : @A:*. (A -> A -> *) -> (A -> A -> *) -> * := \A:*. \R:A -> A -> *. \S:A -> A -> *. @x:A. @y:A. R x y -> S x y
define converse : @A:*. (A -> A -> *) -> A -> A -> * := \A:*. \R:A -> A -> *. \x:A. \y:A. R y x
define composed : @A:*. (A -> A -> *) -> (A -> A -> *) -> A -> A -> * := \A:*. \R:A -> A -> *. \S:A -> A -> *. \x:A. \z:A. quantifiers.ex A (\y:A. logic.and (R x y) (S y z))
define includes_refl : @A:*. @R:A -> A -> *. includes A R R := \A:*. \R:A -> A -> *. \x:A. \y:A. \h:R x y. h
define includes_trans : @A:*. @R:A -> A -> *. @S:A -> A -> *. @T:A -> A -> *. includes A R S -> includes A S T -> includes A R T := \A:*. \R:A -> A -> *. \S:A -> A -> *. \T:A -> A -> *. \g:includes A R S. \h:includes A S T. \x:A. \y:A. \r:R x y. h x y (g x y r)
define converse_trans : @A:*. @R:A -> A -> *. transitive A R -> transitive A (converse A R) := \A:*. \R:A -> A -> *. \t:transitive A R. \x:A. \y:A. \z:A. \p:R y x. \q:R z y. t z y x q p
define converse_anti : @A:*. @R:A -> A -> *. antisymmetric A R -> antisymmetric A (converse A R) := \A:*. \R:A -> A -> *. \t:antisymmetric A R. \x:A. \y:A. \p:R y x. \q:R x y. t x y q p
define trans_composed : @A:*. @R:A -> A -> *. transitive A R -> includes A (composed A R R) R := \A:*. \R:A -> A -> *. \t:transitive A R. \x:A. \z:A. quantifiers.obtain A (\y:A. logic.and (R x y) (R y z)) (R x z) (\y:A. \h:logic.and (R x y) (R y z). t x y z (logic.first (R x y) (R y z) h) (logic.second (R x y) (R y z) h))

% Equality is an equivalence, and it is in each one.
define eq_equivalence : @A:*. equivalence A (equality.eq A) := \A:*. logic.both (reflexive A (equality.eq A)) (logic.and (symmetric A (equality.eq A)) (transitive A (equality.eq A))) (equality.refl A) (logic.both (symmetric A (equality.eq A)) (transitive A (equality.eq A)) (equality.sym A) (equality.trans A))
define eq_least : @A:*. @R:A -> A -> *. reflexive A R -> includes A (equality.eq A) R := \A:*. \R:A -> A -> *. equality.least A R

% The transitive closure of R is the least transitive relation that includes R.
define closure : @A:*. (A -> A -> *) -> A -> A -> * := \A:*. \R:A -> A -> *. \x:A. \y:A. @S:A -> A -> *. transitive A S -> includes A R S -> S x y
define closure_includes : @A:*. @R:A -> A -> *. includes A R (closure A R) := \A:*. \R:A -> A -> *. \x:A. \y:A. \r:R x y. \S:A -> A -> *. \t:transitive A S. \i:includes A R S. i x y r
define closure_trans : @A:*. @R:A -> A -> *. transitive A (closure A R) := \A:*. \R:A -> A -> *. \x:A. \y:A. \z:A. \p:closure A R x y. \q:closure A R y z. \S:A -> A -> *. \t:transitive A S. \i:includes A R S. t x y z (p S t i) (q S t i)
define closure_least : @A:*. @R:A -> A -> *. @S:A -> A -> *. transitive A S -> includes A R S -> includes A (closure A R) S := \A:*. \R:A -> A -> *. \S:A -> A -> *. \t:transitive A S. \i:includes A R S. \x:A. \y:A. \c:closure A R x y. c S t i
end
