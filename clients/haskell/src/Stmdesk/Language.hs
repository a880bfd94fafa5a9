{-# LANGUAGE CPP, ExistentialQuantification, FlexibleContexts, GADTs, TypeFamilies, TypeOperators #-}

-- | The language of blocks as types of Haskell: a block that compiles has a type that stmdesk takes. docs/LANGUAGE.md has the rules.
--
-- "Stmdesk" exports what writes blocks. This module also shows the trees, for programs that look into them.
module Stmdesk.Language
  ( -- * Types
    Typed (..), Type (..), Var (..), Ref (..), OnGHC, typeText, depthOfType, sameType
    -- * Variables
  , variable, Declared (..), Declaration (..), declaration
    -- * Expressions
  , Exp (..), Arithmetic (..), Comparison (..), true, false, (==.), (/=.), (<.), (<=.), (>.), (>=.), (&&.), (||.), not'
    -- * Blocks
  , Block (..), Action (..), Result (..), readVar, writeVar, newVar, modifyVar, let', retry, throwInt, orElse, catchInt, if', when'
  , unless', check'
  ) where

#include "MachDeps.h"
#if WORD_SIZE_IN_BITS < 64
#error "an Int of stmdesk has 64 bits, and an Int of this GHC has fewer"
#endif

import Control.Concurrent.STM (TVar)
import Control.Monad (ap, liftM)
import Data.Type.Equality ((:~:) (Refl))

-- $setup
-- >>> import Stmdesk.Desk
-- >>> import Stmdesk.Text

-- | A variable as a desk prints it: by its number, with the name that it was declared with, if it was; or as the n-th variable
-- that the block itself made. Two references are equal if their numbers are.
data Ref = Ref Int (Maybe String) | NewRef Int
  deriving (Show)

instance Eq Ref where
  a == b = compare a b == EQ

instance Ord Ref where
  compare (Ref a _) (Ref b _) = compare a b
  compare (NewRef a) (NewRef b) = compare a b
  compare (Ref _ _) (NewRef _) = LT
  compare (NewRef _) (Ref _ _) = GT

-- | A reference to a variable that holds values of type @a@: the language's @TVar a@.
newtype Var a = Var Ref
  deriving (Eq, Ord, Show)

-- | The types of the language.
data Type a where
  IntType :: Type Int
  BoolType :: Type Bool
  UnitType :: Type ()
  VarType :: Type a -> Type (Var a)

-- | The types of Haskell that are types of the language: 'Int', 'Bool', @()@, and 'Var' of one of these.
class Typed a where
  typeOf :: Type a

instance Typed Int where
  typeOf = IntType

instance Typed Bool where
  typeOf = BoolType

instance Typed () where
  typeOf = UnitType

instance Typed a => Typed (Var a) where
  typeOf = VarType typeOf

-- | What a value of the language is on GHC: a reference is a 'TVar'.
type family OnGHC a where
  OnGHC Int = Int
  OnGHC Bool = Bool
  OnGHC () = ()
  OnGHC (Var a) = TVar (OnGHC a)

-- | The text of a type.
--
-- >>> typeText (typeOf :: Type (Var (Var Int)))
-- "TVar (TVar Int)"
typeText :: Type a -> String
typeText IntType = "Int"
typeText BoolType = "Bool"
typeText UnitType = "()"
typeText (VarType it@(VarType _)) = "TVar (" ++ typeText it ++ ")"
typeText (VarType it) = "TVar " ++ typeText it

-- | How many @TVar@ a type has.
--
-- >>> depthOfType (typeOf :: Type (Var (Var Int)))
-- 2
depthOfType :: Type a -> Int
depthOfType (VarType it) = 1 + depthOfType it
depthOfType _ = 0

-- | A proof that two types are the same, if they are.
--
-- >>> Data.Maybe.isJust (sameType IntType BoolType)
-- False
sameType :: Type a -> Type b -> Maybe (a :~: b)
sameType IntType IntType = Just Refl
sameType BoolType BoolType = Just Refl
sameType UnitType UnitType = Just Refl
sameType (VarType a) (VarType b) = (\Refl -> Refl) <$> sameType a b
sameType _ _ = Nothing

-- | A variable of this name, and its first value: a number, 'true', 'false', @()@ as 'Unit', or another variable. It is a reference,
-- which blocks read and write. A desk knows it after 'Stmdesk.declareVar'.
--
-- >>> render (readVar (variable "stock" 3))
-- Right "readTVar stock"
-- >>> render (readVar (variable "slot" (variable "stock" 3)) >>= readVar)
-- Right "do { a <- readTVar slot; readTVar a }"
variable :: Typed a => String -> Exp a -> Exp (Var a)
variable name = Declared . Named name typeOf

-- | A variable by its name, with its type and its first value.
data Declared a = Named String (Type a) (Exp a)

-- | A variable of some type.
data Declaration = forall a. Declaration (Exp (Var a))

-- | A variable among those of a script, or of a program on GHC.
--
-- >>> [declaration (variable "stock" 3), declaration (variable "open" true)]
-- [stock,open]
declaration :: Exp (Var a) -> Declaration
declaration = Declaration

instance Show Declaration where
  showsPrec _ (Declaration (Declared (Named name _ _))) = showString name
  showsPrec _ _ = showString "local"

-- | An expression. It reads nothing, so its value is known once its locals are. A sum, difference or product out of the range of
-- 'Int' throws 'Stmdesk.Overflowed'.
data Exp a where
  Number :: Integer -> Exp Int
  Truth :: Bool -> Exp Bool
  Unit :: Exp ()
  Declared :: Declared a -> Exp (Var a)
  -- | A local by its number, in a block that is being written as a text.
  Local :: Int -> Exp a
  -- | A local's value, in a block that runs on GHC.
  Given :: OnGHC a -> Exp a
  Arithmetic :: Arithmetic -> Exp Int -> Exp Int -> Exp Int
  Compare :: Comparison -> Exp Int -> Exp Int -> Exp Bool
  Equal :: Type a -> Exp a -> Exp a -> Exp Bool
  And :: Exp Bool -> Exp Bool -> Exp Bool
  Or :: Exp Bool -> Exp Bool -> Exp Bool

-- | The operators on numbers that give a number.
data Arithmetic = Plus | Minus | Times
  deriving (Eq, Show, Enum, Bounded)

-- | The operators on numbers that give a 'Bool'.
data Comparison = Less | AtMost
  deriving (Eq, Show, Enum, Bounded)

-- | Literals, @+@, @-@, @*@ and 'negate'. The language has no 'abs' and no 'signum', which are errors: write them by 'if''.
--
-- >>> render (pure (2 * (3 - 4) :: Exp Int))
-- Right "return (2 * (3 - 4))"
instance a ~ Int => Num (Exp a) where
  (+) = Arithmetic Plus
  (-) = Arithmetic Minus
  (*) = Arithmetic Times
  fromInteger = Number
  negate (Number n) = Number (negate n)
  negate e = 0 - e
  abs _ = errorWithoutStackTrace "stmdesk has no abs: write it by if'"
  signum _ = errorWithoutStackTrace "stmdesk has no signum: write it by if'"

-- | The literals of 'Bool'.
--
-- >>> render (pure (true &&. not' false))
-- Right "return (True && False == False)"
true, false :: Exp Bool
true = Truth True
false = Truth False

infix 4 ==., /=., <., <=., >., >=.
infixr 3 &&.
infixr 2 ||.

-- | Whether two values of one type are equal, references by identity; or not equal, which the language writes by what it has.
--
-- >>> let x = variable "x" 1
-- >>> render (pure (x ==. x))
-- Right "return (x == x)"
-- >>> render (pure (x /=. x))
-- Right "return ((x == x) == False)"
(==.), (/=.) :: Typed a => Exp a -> Exp a -> Exp Bool
(==.) = Equal typeOf
a /=. b = not' (a ==. b)

-- | Comparisons of numbers.
--
-- >>> map (\op -> render (pure (1 `op` 2))) [(<.), (<=.), (>.), (>=.)]
-- [Right "return (1 < 2)",Right "return (1 <= 2)",Right "return (2 < 1)",Right "return (2 <= 1)"]
(<.), (<=.), (>.), (>=.) :: Exp Int -> Exp Int -> Exp Bool
(<.) = Compare Less
(<=.) = Compare AtMost
a >. b = b <. a
a >=. b = b <=. a

-- | And, or: the right side counts only if the left one doesn't decide.
--
-- >>> render (pure ((true ||. false) &&. true))
-- Right "return ((True || False) && True)"
(&&.), (||.) :: Exp Bool -> Exp Bool -> Exp Bool
(&&.) = And
(||.) = Or

-- | Not.
--
-- >>> render (pure (not' true))
-- Right "return (True == False)"
not' :: Exp Bool -> Exp Bool
not' e = e ==. false

-- | A block, one atomic transaction, or a part of one. What it returns is an expression, or @()@ ('Result').
--
-- >>> :{
-- let stock = variable "stock" 3
--     takeOne = do { n <- readVar stock; check' (0 <. n); writeVar stock (n - 1); pure n }
-- in render takeOne
-- :}
-- Right "do { a <- readTVar stock; if 0 < a then return () else retry; writeTVar stock (a - 1); return a }"
data Block r where
  Pure :: r -> Block r
  Retry :: Block r
  Throw :: Exp Int -> Block r
  Then :: Action a -> (Exp a -> Block r) -> Block r

-- | A step of a block.
data Action a where
  Read :: Exp (Var a) -> Action a
  Write :: Exp (Var a) -> Exp a -> Action ()
  New :: Type a -> Exp a -> Action (Var a)
  Let :: Exp a -> Action a
  If :: Type a -> Exp Bool -> Block (Exp a) -> Block (Exp a) -> Action a
  OrElse :: Type a -> Block (Exp a) -> Block (Exp a) -> Action a
  Catch :: Type a -> Block (Exp a) -> (Exp Int -> Block (Exp a)) -> Action a

instance Functor Block where
  fmap = liftM

instance Applicative Block where
  pure = Pure
  (<*>) = ap

instance Monad Block where
  Pure r >>= rest = rest r
  Retry >>= _ = Retry
  Throw e >>= _ = Throw e
  Then action next >>= rest = Then action (\it -> next it >>= rest)

-- | What a block may return to a desk, and a branch of a block to what follows it: an expression, or @()@.
--
-- >>> withDesk defaults (\desk -> (,) <$> atomically desk (pure 5 :: Block (Exp Int)) <*> atomically desk (pure ()))
-- (5,())
class Typed (Returned r) => Result r where
  -- | The type of its value.
  type Returned r
  toExp :: r -> Exp (Returned r)
  fromExp :: Exp (Returned r) -> r

instance Typed a => Result (Exp a) where
  type Returned (Exp a) = a
  toExp = id
  fromExp = id

instance Result () where
  type Returned () = ()
  toExp _ = Unit
  fromExp _ = ()

-- | Reads a variable.
--
-- >>> render (readVar (variable "x" 1))
-- Right "readTVar x"
readVar :: Exp (Var a) -> Block (Exp a)
readVar v = Then (Read v) Pure

-- | Writes a variable.
--
-- >>> render (writeVar (variable "x" 1) 5)
-- Right "writeTVar x 5"
writeVar :: Exp (Var a) -> Exp a -> Block ()
writeVar v e = Then (Write v e) (const (Pure ()))

-- | Makes a variable.
--
-- >>> render (newVar (5 :: Exp Int))
-- Right "newTVar 5"
newVar :: Typed a => Exp a -> Block (Exp (Var a))
newVar e = Then (New typeOf e) Pure

-- | Reads a variable, and writes what the function makes of its value.
--
-- >>> render (modifyVar (variable "x" 1) (+ 1))
-- Right "do { a <- readTVar x; writeTVar x (a + 1) }"
modifyVar :: Exp (Var a) -> (Exp a -> Exp a) -> Block ()
modifyVar v f = readVar v >>= writeVar v . f

-- | Computes a value once, at this place. A @let@ of Haskell writes its expression at each place where it is used.
--
-- >>> render (do { a <- readVar (variable "x" 1); b <- let' (a * a); pure (b + b) })
-- Right "do { a <- readTVar x; let b = a * a; return (b + b) }"
let' :: Exp a -> Block (Exp a)
let' e = Then (Let e) Pure

-- | Gives the block up: it waits until a variable that it has read changes.
--
-- >>> render (retry :: Block ())
-- Right "retry"
retry :: Block r
retry = Retry

-- | Throws a number.
--
-- >>> render (throwInt 4 :: Block ())
-- Right "throw 4"
throwInt :: Exp Int -> Block r
throwInt = Throw

-- | The first block, or if that retries, the second. Many alternatives are written as a balanced tree, whatever their brackets here,
-- since a text has at most 64 levels.
--
-- >>> let x = variable "x" 1
-- >>> render (foldr orElse retry [readVar x, pure 1, pure 2])
-- Right "orElse (orElse (readTVar x) (return 1)) (orElse (return 2) (retry))"
orElse :: Result r => Block r -> Block r -> Block r
orElse a b = Then (OrElse typeOf (toExp <$> a) (toExp <$> b)) (Pure . fromExp)

-- | The block, or if that throws a number, the handler, from the variables before the block. It catches no overflow.
--
-- >>> render (catchInt (throwInt 4) (\e -> pure (e + 1)))
-- Right "catch (throw 4) a (return (a + 1))"
catchInt :: Result r => Block r -> (Exp Int -> Block r) -> Block r
catchInt a handler = Then (Catch typeOf (toExp <$> a) (fmap toExp . handler)) (Pure . fromExp)

-- | One of two blocks.
--
-- >>> render (if' true (pure 1) (pure 2) :: Block (Exp Int))
-- Right "if True then return 1 else return 2"
if' :: Result r => Exp Bool -> Block r -> Block r -> Block r
if' c a b = Then (If typeOf c (toExp <$> a) (toExp <$> b)) (Pure . fromExp)

-- | The block if the condition holds, or if it doesn't.
--
-- >>> render (when' true (writeVar (variable "x" 1) 5))
-- Right "if True then writeTVar x 5 else return ()"
when', unless' :: Exp Bool -> Block () -> Block ()
when' c a = if' c a (pure ())
unless' c a = if' c (pure ()) a

-- | Retries unless the condition holds.
--
-- >>> render (check' true)
-- Right "if True then return () else retry"
check' :: Exp Bool -> Block ()
check' c = if' c (pure ()) retry
