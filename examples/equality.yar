yarrow-module 1
module equality

% Two things are equal if whatever holds of the first holds of the second.
define eq : @A:*. A -> A -> * := \A:*. \a:A. \b:A. @P:A -> *. P a -> P b

define refl : @A:*. @a:A. eq A a a := \A:*. \a:A. \P:A -> *. \p:P a. p
define sym : @A:*. @a:A. @b:A. eq A a b -> eq A b a := \A:*. \a:A. \b:A. \e:eq A a b. e (\x:A. eq A x a) (refl A a)
define trans : @A:*. @a:A. @b:A. @c:A. eq A a b -> eq A b c -> eq A a c := \A:*. \a:A. \b:A. \c:A. \e:eq A a b. \f:eq A b c. f (\x:A. eq A a x) e

% Equal arguments have equal values.
define cong : @A:*. @B:*. @f:A -> B. @a:A. @b:A. eq A a b -> eq B (f a) (f b) := \A:*. \B:*. \f:A -> B. \a:A. \b:A. \e:eq A a b. e (\x:A. eq B (f a) (f x)) (refl B (f a))
end
