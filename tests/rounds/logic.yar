yarrow-module 1
module logic
define False : * := @C:*. C
define Not : * -> * := \A:*. A -> False
define And : * -> * -> * := \A:*. \B:*. @C:*. (A -> B -> C) -> C
define pair : @A:*. @B:*. A -> B -> And A B := \A:*. \B:*. \a:A. \b:B. \C:*. \k:A -> B -> C. k a b
define fst : @A:*. @B:*. And A B -> A := \A:*. \B:*. \p:And A B. p A (\a:A. \b:B. a)
define snd : @A:*. @B:*. And A B -> B := \A:*. \B:*. \p:And A B. p B (\a:A. \b:B. b)
end
