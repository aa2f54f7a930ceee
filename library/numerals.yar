yarrow-module 1
module numerals
uses equality

% The number n is what does a thing n times.
define nat : * := @A:*. (A -> A) -> A -> A
define zero : nat := \A:*. \s:A -> A. \z:A. z
define succ : nat -> nat := \n:nat. \A:*. \s:A -> A. \z:A. s (n A s z)
define one : nat := succ zero
define plus : nat -> nat -> nat := \m:nat. \n:nat. \A:*. \s:A -> A. \z:A. m A s (n A s z)
define times : nat -> nat -> nat := \m:nat. \n:nat. \A:*. \s:A -> A. m A (n A s)

% Two numbers are the same if they do everything equally. Functions that do the same need not be equal in LC, so this is what laws say.
define same : nat -> nat -> * := \m:nat. \n:nat. @A:*. @s:A -> A. @z:A. equality.eq A (m A s z) (n A s z)
define same_refl : @n:nat. same n n := \n:nat. \A:*. \s:A -> A. \z:A. equality.refl A (n A s z)
define same_sym : @m:nat. @n:nat. same m n -> same n m := \m:nat. \n:nat. \h:same m n. \A:*. \s:A -> A. \z:A. equality.sym A (m A s z) (n A s z) (h A s z)
define same_trans : @k:nat. @m:nat. @n:nat. same k m -> same m n -> same k n := \k:nat. \m:nat. \n:nat. \g:same k m. \h:same m n. \A:*. \s:A -> A. \z:A. equality.trans A (k A s z) (m A s z) (n A s z) (g A s z) (h A s z)
define same_succ : @m:nat. @n:nat. same m n -> same (succ m) (succ n) := \m:nat. \n:nat. \h:same m n. \A:*. \s:A -> A. \z:A. equality.cong A A s (m A s z) (n A s z) (h A s z)
define same_plus : @j:nat. @k:nat. @m:nat. @n:nat. same j k -> same m n -> same (plus j m) (plus k n) := \j:nat. \k:nat. \m:nat. \n:nat. \g:same j k. \h:same m n. \A:*. \s:A -> A. \z:A. equality.trans A (j A s (m A s z)) (j A s (n A s z)) (k A s (n A s z)) (equality.cong A A (j A s) (m A s z) (n A s z) (h A s z)) (g A s (n A s z))

% Laws that hold for all numbers, since both sides compute to one thing.
define zero_plus : @n:nat. same (plus zero n) n := same_refl
define plus_zero : @n:nat. same (plus n zero) n := same_refl
define succ_plus : @m:nat. @n:nat. same (plus (succ m) n) (succ (plus m n)) := \m:nat. \n:nat. same_refl (plus (succ m) n)
define plus_assoc : @k:nat. @m:nat. @n:nat. same (plus (plus k m) n) (plus k (plus m n)) := \k:nat. \m:nat. \n:nat. same_refl (plus k (plus m n))
define zero_times : @n:nat. same (times zero n) zero := \n:nat. same_refl zero
define one_times : @n:nat. same (times one n) n := same_refl
define succ_times : @m:nat. @n:nat. same (times (succ m) n) (plus n (times m n)) := \m:nat. \n:nat. same_refl (plus n (times m n))
define plus_times : @k:nat. @m:nat. @n:nat. same (times (plus k m) n) (plus (times k n) (times m n)) := \k:nat. \m:nat. \n:nat. same_refl (plus (times k n) (times m n))
define times_assoc : @k:nat. @m:nat. @n:nat. same (times (times k m) n) (times k (times m n)) := \k:nat. \m:nat. \n:nat. same_refl (times k (times m n))

% The numbers that induction reaches. Laws that need it ask for it.
define number : nat -> * := \n:nat. @P:nat -> *. P zero -> (@k:nat. P k -> P (succ k)) -> P n
define number_zero : number zero := \P:nat -> *. \p:P zero. \q:@k:nat. P k -> P (succ k). p
define number_succ : @n:nat. number n -> number (succ n) := \n:nat. \h:number n. \P:nat -> *. \p:P zero. \q:@k:nat. P k -> P (succ k). q n (h P p q)
define plus_succ : @m:nat. number m -> @n:nat. same (plus m (succ n)) (succ (plus m n)) := \m:nat. \h:number m. \n:nat. h (\k:nat. same (plus k (succ n)) (succ (plus k n))) (same_refl (succ n)) (\k:nat. same_succ (plus k (succ n)) (succ (plus k n)))
define plus_swap : @m:nat. number m -> @n:nat. number n -> same (plus m n) (plus n m) := \m:nat. \g:number m. \n:nat. \h:number n. g (\k:nat. same (plus k n) (plus n k)) (same_refl n) (\k:nat. \e:same (plus k n) (plus n k). same_trans (succ (plus k n)) (succ (plus n k)) (plus n (succ k)) (same_succ (plus k n) (plus n k) e) (same_sym (plus n (succ k)) (succ (plus n k)) (plus_succ n h k)))
define times_zero : @m:nat. number m -> same (times m zero) zero := \m:nat. \h:number m. h (\k:nat. same (times k zero) zero) (same_refl zero) (\k:nat. \e:same (times k zero) zero. e)
define times_one : @m:nat. number m -> same (times m one) m := \m:nat. \h:number m. h (\k:nat. same (times k one) k) (same_refl zero) (\k:nat. same_succ (times k one) k)
end
