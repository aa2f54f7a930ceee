yarrow-module 1
module logic

% Propositional logic. A proposition is a type, and its proofs are the terms of that type.
% Each connective is what can be done with it, so each comes with what proves it and with what follows from it.

% Truth has a proof, and from falsehood everything follows.
define true : * := @P:*. P -> P
define trivial : true := \P:*. \p:P. p
define false : * := @P:*. P
define absurd : @A:*. false -> A := \A:*. \f:false. f A
define not : * -> * := \A:*. A -> false

% Implication is the arrow.
define identity : @A:*. A -> A := \A:*. \a:A. a
define compose : @A:*. @B:*. @C:*. (B -> C) -> (A -> B) -> A -> C := \A:*. \B:*. \C:*. \g:B -> C. \f:A -> B. \a:A. g (f a)

% Whatever follows from A and B together follows from their conjunction.
define and : * -> * -> * := \A:*. \B:*. @P:*. (A -> B -> P) -> P
define both : @A:*. @B:*. A -> B -> and A B := \A:*. \B:*. \a:A. \b:B. \P:*. \f:A -> B -> P. f a b
define first : @A:*. @B:*. and A B -> A := \A:*. \B:*. \p:and A B. p A (\a:A. \b:B. a)
define second : @A:*. @B:*. and A B -> B := \A:*. \B:*. \p:and A B. p B (\a:A. \b:B. b)
define and_swap : @A:*. @B:*. and A B -> and B A := \A:*. \B:*. \p:and A B. both B A (second A B p) (first A B p)
define and_map : @A:*. @B:*. @C:*. @D:*. (A -> C) -> (B -> D) -> and A B -> and C D := \A:*. \B:*. \C:*. \D:*. \f:A -> C. \g:B -> D. \p:and A B. both C D (f (first A B p)) (g (second A B p))

% Whatever follows from A and also from B follows from their disjunction.
define or : * -> * -> * := \A:*. \B:*. @P:*. (A -> P) -> (B -> P) -> P
define left : @A:*. @B:*. A -> or A B := \A:*. \B:*. \a:A. \P:*. \f:A -> P. \g:B -> P. f a
define right : @A:*. @B:*. B -> or A B := \A:*. \B:*. \b:B. \P:*. \f:A -> P. \g:B -> P. g b
define cases : @A:*. @B:*. @C:*. (A -> C) -> (B -> C) -> or A B -> C := \A:*. \B:*. \C:*. \f:A -> C. \g:B -> C. \p:or A B. p C f g
define or_swap : @A:*. @B:*. or A B -> or B A := \A:*. \B:*. cases A B (or B A) (right B A) (left B A)
define or_map : @A:*. @B:*. @C:*. @D:*. (A -> C) -> (B -> D) -> or A B -> or C D := \A:*. \B:*. \C:*. \D:*. \f:A -> C. \g:B -> D. cases A B (or C D) (\a:A. left C D (f a)) (\b:B. right C D (g b))

% Two propositions are equivalent if each follows from the other.
define iff : * -> * -> * := \A:*. \B:*. and (A -> B) (B -> A)
define iff_refl : @A:*. iff A A := \A:*. both (A -> A) (A -> A) (identity A) (identity A)
define iff_sym : @A:*. @B:*. iff A B -> iff B A := \A:*. \B:*. and_swap (A -> B) (B -> A)
define forwards : @A:*. @B:*. iff A B -> A -> B := \A:*. \B:*. first (A -> B) (B -> A)
define backwards : @A:*. @B:*. iff A B -> B -> A := \A:*. \B:*. second (A -> B) (B -> A)
define iff_trans : @A:*. @B:*. @C:*. iff A B -> iff B C -> iff A C := \A:*. \B:*. \C:*. \p:iff A B. \q:iff B C. both (A -> C) (C -> A) (compose A B C (forwards B C q) (forwards A B p)) (compose C B A (backwards A B p) (backwards B C q))

% And distributes over or.
define distribute : @A:*. @B:*. @C:*. and A (or B C) -> or (and A B) (and A C) := \A:*. \B:*. \C:*. \p:and A (or B C). or_map B C (and A B) (and A C) (\b:B. both A B (first A (or B C) p) b) (\c:C. both A C (first A (or B C) p) c) (second A (or B C) p)

% Negation: what follows from it without the law of excluded middle.
define contrapose : @A:*. @B:*. (A -> B) -> not B -> not A := \A:*. \B:*. \f:A -> B. \n:not B. \a:A. n (f a)
define consistent : @A:*. not (and A (not A)) := \A:*. \p:and A (not A). second A (not A) p (first A (not A) p)
define unrefuted : @A:*. A -> not (not A) := \A:*. \a:A. \n:not A. n a
define thrice : @A:*. not (not (not A)) -> not A := \A:*. contrapose A (not (not A)) (unrefuted A)
define not_or : @A:*. @B:*. iff (not (or A B)) (and (not A) (not B)) := \A:*. \B:*. both (not (or A B) -> and (not A) (not B)) (and (not A) (not B) -> not (or A B)) (\n:not (or A B). both (not A) (not B) (\a:A. n (left A B a)) (\b:B. n (right A B b))) (\p:and (not A) (not B). cases A B false (first (not A) (not B) p) (second (not A) (not B) p))
define not_refuted_middle : @A:*. not (not (or A (not A))) := \A:*. \n:not (or A (not A)). n (right A (not A) (\a:A. n (left A (not A) a)))
end
