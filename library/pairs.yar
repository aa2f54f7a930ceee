yarrow-module 1
module pairs
uses equality

% A pair of an A and a B gives whatever is made of both.
define prod : * -> * -> * := \A:*. \B:*. @C:*. (A -> B -> C) -> C
define pair : @A:*. @B:*. A -> B -> prod A B := \A:*. \B:*. \a:A. \b:B. \C:*. \f:A -> B -> C. f a b
define fst : @A:*. @B:*. prod A B -> A := \A:*. \B:*. \p:prod A B. p A (\a:A. \b:B. a)
define snd : @A:*. @B:*. prod A B -> B := \A:*. \B:*. \p:prod A B. p B (\a:A. \b:B. b)

% The two parts of a pair are those that it was made of.
define fst_pair : @A:*. @B:*. @a:A. @b:B. equality.eq A (fst A B (pair A B a b)) a := \A:*. \B:*. \a:A. \b:B. equality.refl A a
define snd_pair : @A:*. @B:*. @a:A. @b:B. equality.eq B (snd A B (pair A B a b)) b := \A:*. \B:*. \a:A. \b:B. equality.refl B b
define pair_fst : @A:*. @B:*. @a:A. @b:A. @c:B. @d:B. equality.eq (prod A B) (pair A B a c) (pair A B b d) -> equality.eq A a b := \A:*. \B:*. \a:A. \b:A. \c:B. \d:B. equality.cong (prod A B) A (fst A B) (pair A B a c) (pair A B b d)
define pair_snd : @A:*. @B:*. @a:A. @b:A. @c:B. @d:B. equality.eq (prod A B) (pair A B a c) (pair A B b d) -> equality.eq B c d := \A:*. \B:*. \a:A. \b:A. \c:B. \d:B. equality.cong (prod A B) B (snd A B) (pair A B a c) (pair A B b d)
define pair_eq : @A:*. @B:*. @a:A. @b:A. @c:B. @d:B. equality.eq A a b -> equality.eq B c d -> equality.eq (prod A B) (pair A B a c) (pair A B b d) := \A:*. \B:*. \a:A. \b:A. \c:B. \d:B. equality.cong2 A B (prod A B) (pair A B) a b c d

define flip : @A:*. @B:*. prod A B -> prod B A := \A:*. \B:*. \p:prod A B. pair B A (snd A B p) (fst A B p)
define map : @A:*. @B:*. @C:*. @D:*. (A -> C) -> (B -> D) -> prod A B -> prod C D := \A:*. \B:*. \C:*. \D:*. \f:A -> C. \g:B -> D. \p:prod A B. pair C D (f (fst A B p)) (g (snd A B p))
define curry : @A:*. @B:*. @C:*. (prod A B -> C) -> A -> B -> C := \A:*. \B:*. \C:*. \f:prod A B -> C. \a:A. \b:B. f (pair A B a b)
define uncurry : @A:*. @B:*. @C:*. (A -> B -> C) -> prod A B -> C := \A:*. \B:*. \C:*. \f:A -> B -> C. \p:prod A B. p C f
define uncurry_pair : @A:*. @B:*. @C:*. @f:A -> B -> C. @a:A. @b:B. equality.eq C (uncurry A B C f (pair A B a b)) (f a b) := \A:*. \B:*. \C:*. \f:A -> B -> C. \a:A. \b:B. equality.refl C (f a b)
define flip_pair : @A:*. @B:*. @a:A. @b:B. equality.eq (prod B A) (flip A B (pair A B a b)) (pair B A b a) := \A:*. \B:*. \a:A. \b:B. equality.refl (prod B A) (pair B A b a)
end
