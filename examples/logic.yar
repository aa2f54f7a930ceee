yarrow-module 1
module logic

% A proposition is a type, and its proofs are the terms of that type. Each connective is what can be done with it.

define false : * := @P:*. P
define not : * -> * := \A:*. A -> false

% Whatever follows from A and B follows from their conjunction.
define and : * -> * -> * := \A:*. \B:*. @P:*. (A -> B -> P) -> P
define pair : @A:*. @B:*. A -> B -> and A B := \A:*. \B:*. \a:A. \b:B. \P:*. \f:A -> B -> P. f a b
define first : @A:*. @B:*. and A B -> A := \A:*. \B:*. \p:and A B. p A (\a:A. \b:B. a)
define second : @A:*. @B:*. and A B -> B := \A:*. \B:*. \p:and A B. p B (\a:A. \b:B. b)
define swap : @A:*. @B:*. and A B -> and B A := \A:*. \B:*. \p:and A B. pair B A (second A B p) (first A B p)

% Whatever follows from each of A and B follows from their disjunction.
define or : * -> * -> * := \A:*. \B:*. @P:*. (A -> P) -> (B -> P) -> P
define left : @A:*. @B:*. A -> or A B := \A:*. \B:*. \a:A. \P:*. \f:A -> P. \g:B -> P. f a
define right : @A:*. @B:*. B -> or A B := \A:*. \B:*. \b:B. \P:*. \f:A -> P. \g:B -> P. g b

% A proposition and its negation are not both true, and a proposition that has a proof is not refuted.
define consistent : @A:*. not (and A (not A)) := \A:*. \p:and A (not A). second A (not A) p (first A (not A) p)
define unrefuted : @A:*. A -> not (not A) := \A:*. \a:A. \n:not A. n a
end
