yarrow-module 1
module automath

% A logic is a few primitive notions. Here prop is a type, and each of its things has a type of proofs.
assume prop : *
assume proof : prop -> *

% What follows from an assumption, and back.
assume implies : prop -> prop -> prop
assume conclude : @a:prop. @b:prop. (proof a -> proof b) -> proof (implies a b)
assume detach : @a:prop. @b:prop. proof (implies a b) -> proof a -> proof b

% What holds of each thing of a type. The type is a parameter.
assume all : @A:*. (A -> prop) -> prop
assume generalize : @A:*. @P:A -> prop. (@x:A. proof (P x)) -> proof (all A P)
assume apply : @A:*. @P:A -> prop. proof (all A P) -> @x:A. proof (P x)

% Since prop is a type, falsehood can be defined: that everything holds.
define false : prop := all prop (\a:prop. a)
define everything : proof false -> @a:prop. proof a := \f:proof false. apply prop (\a:prop. a) f
define not : prop -> prop := \a:prop. implies a false

define same : @a:prop. proof (implies a a) := \a:prop. conclude a a (\p:proof a. p)
define chain : @a:prop. @b:prop. @c:prop. proof (implies a b) -> proof (implies b c) -> proof (implies a c) := \a:prop. \b:prop. \c:prop. \p:proof (implies a b). \q:proof (implies b c). conclude a c (\r:proof a. detach b c q (detach a b p r))

% Two things are equal if whatever holds of the first holds of the second.
define equal : @A:*. A -> A -> prop := \A:*. \x:A. \y:A. all (A -> prop) (\P:A -> prop. implies (P x) (P y))
define reflexive : @A:*. @x:A. proof (equal A x x) := \A:*. \x:A. generalize (A -> prop) (\P:A -> prop. implies (P x) (P x)) (\P:A -> prop. same (P x))
define replace : @A:*. @x:A. @y:A. @P:A -> prop. proof (equal A x y) -> proof (P x) -> proof (P y) := \A:*. \x:A. \y:A. \P:A -> prop. \e:proof (equal A x y). detach (P x) (P y) (apply (A -> prop) (\Q:A -> prop. implies (Q x) (Q y)) e P)
define symmetric : @A:*. @x:A. @y:A. proof (equal A x y) -> proof (equal A y x) := \A:*. \x:A. \y:A. \e:proof (equal A x y). replace A x y (\z:A. equal A z x) e (reflexive A x)
end
