yarrow-module 1
module equality
uses logic

% Leibniz equality: two things are equal if whatever holds of the first holds of the second.
define eq : @A:*. A -> A -> * := \A:*. \a:A. \b:A. @P:A -> *. P a -> P b

define refl : @A:*. @a:A. eq A a a := \A:*. \a:A. \P:A -> *. \p:P a. p
define subst : @A:*. @P:A -> *. @a:A. @b:A. eq A a b -> P a -> P b := \A:*. \P:A -> *. \a:A. \b:A. \e:eq A a b. e P
define sym : @A:*. @a:A. @b:A. eq A a b -> eq A b a := \A:*. \a:A. \b:A. \e:eq A a b. e (\x:A. eq A x a) (refl A a)
define trans : @A:*. @a:A. @b:A. @c:A. eq A a b -> eq A b c -> eq A a c := \A:*. \a:A. \b:A. \c:A. \e:eq A a b. \f:eq A b c. f (\x:A. eq A a x) e

% Equal arguments have equal values, and equal functions too.
define cong : @A:*. @B:*. @f:A -> B. @a:A. @b:A. eq A a b -> eq B (f a) (f b) := \A:*. \B:*. \f:A -> B. \a:A. \b:A. \e:eq A a b. e (\x:A. eq B (f a) (f x)) (refl B (f a))
define cong_fun : @A:*. @B:*. @f:A -> B. @g:A -> B. eq (A -> B) f g -> @a:A. eq B (f a) (g a) := \A:*. \B:*. \f:A -> B. \g:A -> B. \e:eq (A -> B) f g. \a:A. e (\h:A -> B. eq B (f a) (h a)) (refl B (f a))
define cong2 : @A:*. @B:*. @C:*. @f:A -> B -> C. @a:A. @b:A. @c:B. @d:B. eq A a b -> eq B c d -> eq C (f a c) (f b d) := \A:*. \B:*. \C:*. \f:A -> B -> C. \a:A. \b:A. \c:B. \d:B. \e:eq A a b. \h:eq B c d. trans C (f a c) (f b c) (f b d) (cong A C (\x:A. f x c) a b e) (cong B C (f b) c d h)

% Things are different if their equality is refuted.
define neq : @A:*. A -> A -> * := \A:*. \a:A. \b:A. logic.not (eq A a b)
define neq_sym : @A:*. @a:A. @b:A. neq A a b -> neq A b a := \A:*. \a:A. \b:A. \n:neq A a b. \e:eq A b a. n (sym A b a e)
define neq_by : @A:*. @P:A -> *. @a:A. @b:A. P a -> logic.not (P b) -> neq A a b := \A:*. \P:A -> *. \a:A. \b:A. \p:P a. \n:logic.not (P b). \e:eq A a b. n (e P p)

% Equality is the least reflexive relation.
define least : @A:*. @R:A -> A -> *. (@x:A. R x x) -> @a:A. @b:A. eq A a b -> R a b := \A:*. \R:A -> A -> *. \r:@x:A. R x x. \a:A. \b:A. \e:eq A a b. e (R a) (r a)
end
