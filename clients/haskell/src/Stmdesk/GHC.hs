{-# LANGUAGE ExistentialQuantification, GADTs, RankNTypes #-}

-- | Blocks on GHC's own STM, with the same meaning: what is thrown, what a handler and a right branch see, and overflows.
module Stmdesk.GHC (toSTM, Vars, newVars, lookupVar, Fault (..), SomeTVar (..), runOnGHC) where

import Control.Concurrent.STM (STM, TVar, catchSTM, newTVar, readTVar, throwSTM, writeTVar)
import qualified Control.Concurrent.STM as STM
import Control.Exception (Exception (..))
import Control.Monad (foldM)
import Data.Map.Strict (Map)
import qualified Data.Map.Strict as Map
import Data.Type.Equality ((:~:) (Refl))
import Stmdesk.Language
import Stmdesk.Text (Declaring (declaredName), Limit (..), renderDeclaration)

-- | What a block threw: a number, or that a sum, difference or product was out of range. 'toSTM' throws it, and
-- 'Stmdesk.atomically', too.
data Fault = Thrown Int | Overflowed
  deriving (Eq, Ord, Show)

instance Exception Fault where
  displayException (Thrown n) = "the block threw " ++ show n
  displayException Overflowed = "the block threw an overflow"

-- | A variable of GHC's, with the type that it has in the language.
data SomeTVar = forall a. SomeTVar (Type a) (TVar (OnGHC a))

-- | Variables of GHC's by their names.
newtype Vars = Vars (Map String SomeTVar)

instance Show Vars where
  showsPrec _ (Vars known) = shows (Map.keys known)

-- | Makes the variables, each with its first value. A variable that is another one's first value is given before it.
--
-- >>> let x = variable "x" 1
-- >>> vars <- newVars [declaration x, declaration (variable "slot" x)]
-- >>> STM.atomically (toSTM vars (readVar (variable "slot" x) >>= readVar))
-- 1
-- >>> newVars [declaration (variable "slot" x)]
-- *** Exception: Undeclared "x"
newVars :: [Declaration] -> IO Vars
newVars = fmap Vars . STM.atomically . foldM add Map.empty
  where
    add known (Declaration it) = do
      name <- declaredName <$> either throwSTM pure (renderDeclaration it)
      if Map.member name known then throwSTM (TwoOfName name) else do
        made <- make known it
        pure (Map.insert name made known)
    make :: Map String SomeTVar -> Exp (Var a) -> STM SomeTVar
    make known (Declared (Named _ kind first)) = SomeTVar kind <$> (value (Vars known) first >>= newTVar)
    make _ _ = error "a local left its block"

-- | The variable of this name and type. Throws 'Undeclared' if there is none.
lookupVar :: Vars -> Exp (Var a) -> STM (TVar (OnGHC a))
lookupVar = value

-- | The block as a transaction of GHC's, over these variables. It retries when the block does, and throws a 'Fault' when the block
-- throws. Throws a 'Limit' if the block names a variable that isn't there.
--
-- >>> let x = variable "x" 1
-- >>> vars <- newVars [declaration x]
-- >>> STM.atomically (toSTM vars (do { a <- readVar x; writeVar x (a + 1); pure a }))
-- 1
-- >>> STM.atomically (toSTM vars (readVar x `orElse` retry))
-- 2
toSTM :: Result r => Vars -> Block r -> STM (OnGHC (Returned r))
toSTM = runOnGHC (\_ _ -> pure ())

-- | The same, with something to do for each variable that the block makes. If a branch is given up, so is what was done in it.
runOnGHC :: Result r => (forall a. Type a -> TVar (OnGHC a) -> STM ()) -> Vars -> Block r -> STM (OnGHC (Returned r))
runOnGHC onNew vars block = run (toExp <$> block)
  where
    run :: Block (Exp a) -> STM (OnGHC a)
    run (Pure e) = value vars e
    run Retry = STM.retry
    run (Throw e) = value vars e >>= throwSTM . Thrown
    run (Then step next) = act step >>= run . next . Given

    act :: Action a -> STM (OnGHC a)
    act (Read v) = value vars v >>= readTVar
    act (Write v e) = do
      to <- value vars v
      it <- value vars e
      writeTVar to it
    act (New kind e) = do
      made <- value vars e >>= newTVar
      made <$ onNew kind made
    act (Let e) = value vars e
    act (If _ c a b) = do
      holds <- value vars c
      if holds then run a else run b
    act (OrElse _ a b) = run a `STM.orElse` run b
    act (Catch _ a handler) = run a `catchSTM` \fault -> case fault of
      Thrown n -> run (handler (Number (toInteger n)))
      Overflowed -> throwSTM Overflowed

-- | The value of an expression, computed from left to right.
value :: Vars -> Exp a -> STM (OnGHC a)
value vars@(Vars known) e = case e of
  Number n -> inRange (NumberOutOfRange n) n
  Truth b -> pure b
  Unit -> pure ()
  Declared (Named name kind _) -> case Map.lookup name known of
    Nothing -> throwSTM (Undeclared name)
    Just (SomeTVar kind' it) -> case sameType kind kind' of
      Just Refl -> pure it
      Nothing -> throwSTM (TwoOfName name)
  Local _ -> error "a local left its text"
  Given it -> pure it
  Arithmetic operator a b -> do
    left <- value vars a
    right <- value vars b
    inRange Overflowed (arithmetic operator (toInteger left) (toInteger right))
  Compare Less a b -> (<) <$> value vars a <*> value vars b
  Compare AtMost a b -> (<=) <$> value vars a <*> value vars b
  Equal kind a b -> same kind <$> value vars a <*> value vars b
  And a b -> value vars a >>= \holds -> if holds then value vars b else pure False
  Or a b -> value vars a >>= \holds -> if holds then pure True else value vars b

inRange :: Exception e => e -> Integer -> STM Int
inRange fault n
  | n < toInteger (minBound :: Int) || n > toInteger (maxBound :: Int) = throwSTM fault
  | otherwise = pure $! fromInteger n

arithmetic :: Arithmetic -> Integer -> Integer -> Integer
arithmetic Plus = (+)
arithmetic Minus = (-)
arithmetic Times = (*)

same :: Type a -> OnGHC a -> OnGHC a -> Bool
same IntType = (==)
same BoolType = (==)
same UnitType = (==)
same (VarType _) = (==)
