yarrow-module 1
module orders
uses logic
uses equality
uses relations

% An order R on a type A: R x y reads that x is at most y.
define order : @A:*. (A -> A -> *) -> * := \A:*. \R:A -> A -> *. logic.and (relations.reflexive A R) (logic.and (relations.transitive A R) (relations.antisymmetric A R))
define made : @A:*. @R:A -> A -> *. relations.reflexive A R -> relations.transitive A R -> relations.antisymmetric A R -> order A R := \A:*. \R:A -> A -> *. \r:relations.reflexive A R. \t:relations.transitive A R. \a:relations.antisymmetric A R. logic.both (relations.reflexive A R) (logic.and (relations.transitive A R) (relations.antisymmetric A R)) r (logic.both (relations.transitive A R) (relations.antisymmetric A R) t a)
define refl : @A:*. @R:A -> A -> *. order A R -> relations.reflexive A R := \A:*. \R:A -> A -> *. logic.first (relations.reflexive A R) (logic.and (relations.transitive A R) (relations.antisymmetric A R))
define trans : @A:*. @R:A -> A -> *. order A R -> relations.transitive A R := \A:*. \R:A -> A -> *. \o:order A R. logic.first (relations.transitive A R) (relations.antisymmetric A R) (logic.second (relations.reflexive A R) (logic.and (relations.transitive A R) (relations.antisymmetric A R)) o)
define anti : @A:*. @R:A -> A -> *. order A R -> relations.antisymmetric A R := \A:*. \R:A -> A -> *. \o:order A R. logic.second (relations.transitive A R) (relations.antisymmetric A R) (logic.second (relations.reflexive A R) (logic.and (relations.transitive A R) (relations.antisymmetric A R)) o)

% Each order has its converse, so what holds of upper bounds holds of lower ones.
define dual : @A:*. @R:A -> A -> *. order A R -> order A (relations.converse A R) := \A:*. \R:A -> A -> *. \o:order A R. made A (relations.converse A R) (refl A R o) (relations.converse_trans A R (trans A R o)) (relations.converse_anti A R (anti A R o))

% A set of things is a predicate. Upper bounds, and the least of them.
define upper : @A:*. (A -> A -> *) -> (A -> *) -> A -> * := \A:*. \R:A -> A -> *. \P:A -> *. \b:A. @x:A. P x -> R x b
define supremum : @A:*. (A -> A -> *) -> (A -> *) -> A -> * := \A:*. \R:A -> A -> *. \P:A -> *. \b:A. logic.and (upper A R P b) (@c:A. upper A R P c -> R b c)
define infimum : @A:*. (A -> A -> *) -> (A -> *) -> A -> * := \A:*. \R:A -> A -> *. supremum A (relations.converse A R)
define sup_upper : @A:*. @R:A -> A -> *. @P:A -> *. @b:A. supremum A R P b -> upper A R P b := \A:*. \R:A -> A -> *. \P:A -> *. \b:A. logic.first (upper A R P b) (@c:A. upper A R P c -> R b c)
define sup_least : @A:*. @R:A -> A -> *. @P:A -> *. @b:A. supremum A R P b -> @c:A. upper A R P c -> R b c := \A:*. \R:A -> A -> *. \P:A -> *. \b:A. logic.second (upper A R P b) (@c:A. upper A R P c -> R b c)
define sup_unique : @A:*. @R:A -> A -> *. order A R -> @P:A -> *. @a:A. @b:A. supremum A R P a -> supremum A R P b -> equality.eq A a b := \A:*. \R:A -> A -> *. \o:order A R. \P:A -> *. \a:A. \b:A. \p:supremum A R P a. \q:supremum A R P b. anti A R o a b (sup_least A R P a p b (sup_upper A R P b q)) (sup_least A R P b q a (sup_upper A R P a p))
define inf_unique : @A:*. @R:A -> A -> *. order A R -> @P:A -> *. @a:A. @b:A. infimum A R P a -> infimum A R P b -> equality.eq A a b := \A:*. \R:A -> A -> *. \o:order A R. sup_unique A (relations.converse A R) (dual A R o)
define sup_monotone : @A:*. @R:A -> A -> *. @P:A -> *. @Q:A -> *. (@x:A. P x -> Q x) -> @a:A. @b:A. supremum A R P a -> supremum A R Q b -> R a b := \A:*. \R:A -> A -> *. \P:A -> *. \Q:A -> *. \i:@x:A. P x -> Q x. \a:A. \b:A. \p:supremum A R P a. \q:supremum A R Q b. sup_least A R P a p b (\x:A. \h:P x. sup_upper A R Q b q x (i x h))

% Functions that keep the order.
define monotone : @A:*. @B:*. (A -> A -> *) -> (B -> B -> *) -> (A -> B) -> * := \A:*. \B:*. \R:A -> A -> *. \S:B -> B -> *. \f:A -> B. @x:A. @y:A. R x y -> S (f x) (f y)
define monotone_compose : @A:*. @B:*. @C:*. @R:A -> A -> *. @S:B -> B -> *. @T:C -> C -> *. @f:A -> B. @g:B -> C. monotone A B R S f -> monotone B C S T g -> monotone A C R T (\x:A. g (f x)) := \A:*. \B:*. \C:*. \R:A -> A -> *. \S:B -> B -> *. \T:C -> C -> *. \f:A -> B. \g:B -> C. \h:monotone A B R S f. \k:monotone B C S T g. \x:A. \y:A. \r:R x y. k (f x) (f y) (h x y r)

% The theorem of Knaster and Tarski: the greatest lower bound of what f leads downwards is a fixed point of f.
define fixed_down : @A:*. @R:A -> A -> *. order A R -> @f:A -> A. monotone A A R R f -> @m:A. infimum A R (\x:A. R (f x) x) m -> R (f m) m := \A:*. \R:A -> A -> *. \o:order A R. \f:A -> A. \h:monotone A A R R f. \m:A. \i:infimum A R (\x:A. R (f x) x) m. sup_least A (relations.converse A R) (\x:A. R (f x) x) m i (f m) (\x:A. \p:R (f x) x. trans A R o (f m) (f x) x (h m x (sup_upper A (relations.converse A R) (\y:A. R (f y) y) m i x p)) p)
define fixed_point : @A:*. @R:A -> A -> *. order A R -> @f:A -> A. monotone A A R R f -> @m:A. infimum A R (\x:A. R (f x) x) m -> equality.eq A (f m) m := \A:*. \R:A -> A -> *. \o:order A R. \f:A -> A. \h:monotone A A R R f. \m:A. \i:infimum A R (\x:A. R (f x) x) m. anti A R o (f m) m (fixed_down A R o f h m i) (sup_upper A (relations.converse A R) (\x:A. R (f x) x) m i (f m) (h (f m) m (fixed_down A R o f h m i)))
end
