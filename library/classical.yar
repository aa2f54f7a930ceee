yarrow-module 1
module classical
uses logic
uses quantifiers

% The one axiom of the library: each proposition holds, or its negation does. What uses this module stands on it, and no other does.
assume excluded_middle : @A:*. logic.or A (logic.not A)

define by_contradiction : @A:*. logic.not (logic.not A) -> A := \A:*. \n:logic.not (logic.not A). logic.cases A (logic.not A) A (logic.identity A) (\m:logic.not A. logic.absurd A (n m)) (excluded_middle A)
define peirce : @A:*. @B:*. ((A -> B) -> A) -> A := \A:*. \B:*. \f:(A -> B) -> A. by_contradiction A (\n:logic.not A. n (f (\a:A. logic.absurd B (n a))))
define contrapose : @A:*. @B:*. (logic.not B -> logic.not A) -> A -> B := \A:*. \B:*. \f:logic.not B -> logic.not A. \a:A. by_contradiction B (\n:logic.not B. f n a)
define implies_or : @A:*. @B:*. (A -> B) -> logic.or (logic.not A) B := \A:*. \B:*. \f:A -> B. logic.cases A (logic.not A) (logic.or (logic.not A) B) (\a:A. logic.right (logic.not A) B (f a)) (logic.left (logic.not A) B) (excluded_middle A)
define not_and : @A:*. @B:*. logic.not (logic.and A B) -> logic.or (logic.not A) (logic.not B) := \A:*. \B:*. \n:logic.not (logic.and A B). implies_or A (logic.not B) (\a:A. \b:B. n (logic.both A B a b))
define not_all : @A:*. @P:A -> *. logic.not (@x:A. P x) -> quantifiers.ex A (\x:A. logic.not (P x)) := \A:*. \P:A -> *. \n:logic.not (@x:A. P x). by_contradiction (quantifiers.ex A (\x:A. logic.not (P x))) (\m:logic.not (quantifiers.ex A (\x:A. logic.not (P x))). n (\x:A. by_contradiction (P x) (\k:logic.not (P x). m (quantifiers.witness A (\y:A. logic.not (P y)) x k))))
define drinker : @A:*. @P:A -> *. A -> quantifiers.ex A (\x:A. P x -> @y:A. P y) := \A:*. \P:A -> *. \a:A. logic.cases (@y:A. P y) (logic.not (@y:A. P y)) (quantifiers.ex A (\x:A. P x -> @y:A. P y)) (\h:@y:A. P y. quantifiers.witness A (\x:A. P x -> @y:A. P y) a (\p:P a. h)) (\n:logic.not (@y:A. P y). quantifiers.ex_map A (\x:A. logic.not (P x)) (\x:A. P x -> @y:A. P y) (\x:A. \k:logic.not (P x). \p:P x. logic.absurd (@y:A. P y) (k p)) (not_all A P n)) (excluded_middle (@y:A. P y))
end
