yarrow-module 1
module sums
uses equality

% A thing of a sum comes from the left or from the right, and gives whatever is made of both kinds.
define sum : * -> * -> * := \A:*. \B:*. @C:*. (A -> C) -> (B -> C) -> C
define inl : @A:*. @B:*. A -> sum A B := \A:*. \B:*. \a:A. \C:*. \f:A -> C. \g:B -> C. f a
define inr : @A:*. @B:*. B -> sum A B := \A:*. \B:*. \b:B. \C:*. \f:A -> C. \g:B -> C. g b
define case : @A:*. @B:*. @C:*. (A -> C) -> (B -> C) -> sum A B -> C := \A:*. \B:*. \C:*. \f:A -> C. \g:B -> C. \s:sum A B. s C f g

define case_inl : @A:*. @B:*. @C:*. @f:A -> C. @g:B -> C. @a:A. equality.eq C (case A B C f g (inl A B a)) (f a) := \A:*. \B:*. \C:*. \f:A -> C. \g:B -> C. \a:A. equality.refl C (f a)
define case_inr : @A:*. @B:*. @C:*. @f:A -> C. @g:B -> C. @b:B. equality.eq C (case A B C f g (inr A B b)) (g b) := \A:*. \B:*. \C:*. \f:A -> C. \g:B -> C. \b:B. equality.refl C (g b)

define flip : @A:*. @B:*. sum A B -> sum B A := \A:*. \B:*. case A B (sum B A) (inr B A) (inl B A)
define map : @A:*. @B:*. @C:*. @D:*. (A -> C) -> (B -> D) -> sum A B -> sum C D := \A:*. \B:*. \C:*. \D:*. \f:A -> C. \g:B -> D. case A B (sum C D) (\a:A. inl C D (f a)) (\b:B. inr C D (g b))

% Equal things of a sum that come from one side come from equal things.
define inl_inj : @A:*. @B:*. @a:A. @b:A. equality.eq (sum A B) (inl A B a) (inl A B b) -> equality.eq A a b := \A:*. \B:*. \a:A. \b:A. equality.cong (sum A B) A (case A B A (\x:A. x) (\y:B. a)) (inl A B a) (inl A B b)
define inr_inj : @A:*. @B:*. @a:B. @b:B. equality.eq (sum A B) (inr A B a) (inr A B b) -> equality.eq B a b := \A:*. \B:*. \a:B. \b:B. equality.cong (sum A B) B (case A B B (\x:A. a) (\y:B. y)) (inr A B a) (inr A B b)
end
