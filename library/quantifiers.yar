yarrow-module 1
module quantifiers
uses logic

% Predicate logic over a type. That all x have a property is the product @x:A. P x, which needs no definition.

% Whatever follows from P x, for each x, follows from there being such an x.
define ex : @A:*. (A -> *) -> * := \A:*. \P:A -> *. @C:*. (@x:A. P x -> C) -> C
define witness : @A:*. @P:A -> *. @x:A. P x -> ex A P := \A:*. \P:A -> *. \x:A. \p:P x. \C:*. \f:@y:A. P y -> C. f x p
define obtain : @A:*. @P:A -> *. @C:*. (@x:A. P x -> C) -> ex A P -> C := \A:*. \P:A -> *. \C:*. \f:@x:A. P x -> C. \e:ex A P. e C f
define ex_map : @A:*. @P:A -> *. @Q:A -> *. (@x:A. P x -> Q x) -> ex A P -> ex A Q := \A:*. \P:A -> *. \Q:A -> *. \f:@x:A. P x -> Q x. obtain A P (ex A Q) (\x:A. \p:P x. witness A Q x (f x p))

% Quantifiers and connectives.
define all_and : @A:*. @P:A -> *. @Q:A -> *. logic.iff (@x:A. logic.and (P x) (Q x)) (logic.and (@x:A. P x) (@x:A. Q x)) := \A:*. \P:A -> *. \Q:A -> *. logic.both ((@x:A. logic.and (P x) (Q x)) -> logic.and (@x:A. P x) (@x:A. Q x)) (logic.and (@x:A. P x) (@x:A. Q x) -> @x:A. logic.and (P x) (Q x)) (\h:@x:A. logic.and (P x) (Q x). logic.both (@x:A. P x) (@x:A. Q x) (\x:A. logic.first (P x) (Q x) (h x)) (\x:A. logic.second (P x) (Q x) (h x))) (\h:logic.and (@x:A. P x) (@x:A. Q x). \x:A. logic.both (P x) (Q x) (logic.first (@y:A. P y) (@y:A. Q y) h x) (logic.second (@y:A. P y) (@y:A. Q y) h x))
define ex_or : @A:*. @P:A -> *. @Q:A -> *. ex A (\x:A. logic.or (P x) (Q x)) -> logic.or (ex A P) (ex A Q) := \A:*. \P:A -> *. \Q:A -> *. obtain A (\x:A. logic.or (P x) (Q x)) (logic.or (ex A P) (ex A Q)) (\x:A. logic.or_map (P x) (Q x) (ex A P) (ex A Q) (witness A P x) (witness A Q x))
define ex_and : @A:*. @P:A -> *. @B:*. logic.and (ex A P) B -> ex A (\x:A. logic.and (P x) B) := \A:*. \P:A -> *. \B:*. \h:logic.and (ex A P) B. obtain A P (ex A (\x:A. logic.and (P x) B)) (\x:A. \p:P x. witness A (\y:A. logic.and (P y) B) x (logic.both (P x) B p (logic.second (ex A P) B h))) (logic.first (ex A P) B h)

% Quantifiers and negation.
define not_ex : @A:*. @P:A -> *. logic.iff (logic.not (ex A P)) (@x:A. logic.not (P x)) := \A:*. \P:A -> *. logic.both (logic.not (ex A P) -> @x:A. logic.not (P x)) ((@x:A. logic.not (P x)) -> logic.not (ex A P)) (\n:logic.not (ex A P). \x:A. \p:P x. n (witness A P x p)) (\n:@x:A. logic.not (P x). obtain A P logic.false n)
define ex_not : @A:*. @P:A -> *. ex A (\x:A. logic.not (P x)) -> logic.not (@x:A. P x) := \A:*. \P:A -> *. \e:ex A (\x:A. logic.not (P x)). \h:@x:A. P x. obtain A (\x:A. logic.not (P x)) logic.false (\x:A. \n:logic.not (P x). n (h x)) e

% The order of quantifiers: one y for all x is more than a y for each x.
define swap : @A:*. @B:*. @R:A -> B -> *. ex B (\y:B. @x:A. R x y) -> @x:A. ex B (R x) := \A:*. \B:*. \R:A -> B -> *. \e:ex B (\y:B. @x:A. R x y). \x:A. obtain B (\y:B. @z:A. R z y) (ex B (R x)) (\y:B. \h:@z:A. R z y. witness B (R x) y (h x)) e
end
