{-# LANGUAGE FlexibleContexts, GADTs #-}

-- | Random blocks, on a desk and on GHC's STM, one after another over the same variables: verdicts, results and stores have to be equal.
module Blocks
  ( blocks, Plan, plans, planned, Sizes (..), Unit' (..), Reference (..), Env, start, variables, allVars, contents, va, vb, vx, vy
  ) where

import Check
import Control.Concurrent.STM (TVar, newTVarIO, readTVar, readTVarIO, writeTVar)
import qualified Control.Concurrent.STM as STM
import Control.Exception (SomeException, catch, displayException, throwIO, try)
import Control.Monad (forM_)
import Data.IORef
import Data.List (findIndex)
import qualified Data.Map.Strict as Map
import Data.Type.Equality ((:~:) (Refl))
import Stmdesk
import Stmdesk.GHC (SomeTVar (..), lookupVar, runOnGHC)
import Stmdesk.Language (Declaration (..), Declared (..), Exp (..), Result (..), Type (..), Typed (..), sameType)
import Test.QuickCheck (Gen, choose, elements, frequency, oneof)
import Test.QuickCheck.Gen (unGen)
import Test.QuickCheck.Random (mkQCGen)

-- | The variables. Two have names that locals would have.
va, vb, vx, vy :: Exp (Var Int)
va = variable "a" 1
vb = variable "b" 2
vx = variable "x" 0
vy = variable "y" (-1)

flag :: Exp (Var Bool)
flag = variable "flag" false

slot :: Exp (Var (Var Int))
slot = variable "slot" vx

done :: Exp (Var ())
done = variable "done" (toExp ())

variables :: [Declaration]
variables = map declaration [va, vb, vx, vy] ++ [declaration flag, declaration slot, declaration done]

-- | What is planned of expressions and blocks, with locals by number, counted modulo how many there are.
data Number
  = Literal Integer
  | LocalNumber Int
  | Sum Number Number
  | Difference Number Number
  | Product Number Number

data Truth
  = Constant Bool
  | LocalTruth Int
  | IsLess Number Number
  | IsAtMost Number Number
  | AreEqual Number Number
  | AreSame Truth Truth
  | AreOne Reference Reference
  | Both Truth Truth
  | OneOf Truth Truth

data Reference = ByName Int | LocalReference Int

-- | What a block returns if that is @()@.
data Unit' = Unit'

-- | A block that returns what is planned as @r@.
data Plan r
  = Done r
  | Retries
  | ThrowsIt Number
  | ReadsNumber Reference (Plan r)
  | WritesNumber Reference Number (Plan r)
  | ReadsFlag (Plan r)
  | WritesFlag Truth (Plan r)
  | ReadsSlot (Plan r)
  | WritesSlot Reference (Plan r)
  | WritesDone (Plan r)
  | MakesNumber Number (Plan r)
  | MakesTruth Truth (Plan r)
  | LetsNumber Number (Plan r)
  | LetsTruth Truth (Plan r)
  | AsNumber (Way Number) (Plan r)
  | AsTruth (Way Truth) (Plan r)
  | AsReference (Way Reference) (Plan r)
  | AsUnit (Way Unit') (Plan r)

data Way r = Choice Truth (Plan r) (Plan r) | Alternative (Plan r) (Plan r) | Handled (Plan r) (Plan r)

-- | The locals.
data Env = Env {numbers :: [Exp Int], truths :: [Exp Bool], references :: [Exp (Var Int)]}

start :: Env
start = Env [] [] [va, vb, vx, vy]

number :: Env -> Number -> Exp Int
number env it = case it of
  Literal n -> fromInteger n
  LocalNumber n -> pick 0 (numbers env) n
  Sum l r -> number env l + number env r
  Difference l r -> number env l - number env r
  Product l r -> number env l * number env r

truth :: Env -> Truth -> Exp Bool
truth env it = case it of
  Constant c -> if c then true else false
  LocalTruth n -> pick true (truths env) n
  IsLess l r -> number env l <. number env r
  IsAtMost l r -> number env l <=. number env r
  AreEqual l r -> number env l ==. number env r
  AreSame l r -> truth env l ==. truth env r
  AreOne l r -> Equal typeOf (reference env l) (reference env r)
  Both l r -> truth env l &&. truth env r
  OneOf l r -> truth env l ||. truth env r

reference :: Env -> Reference -> Exp (Var Int)
reference env it = case it of
  ByName n -> [va, vb, vx, vy] !! (n `mod` 4)
  LocalReference n -> pick vx (references env) n

pick :: e -> [e] -> Int -> e
pick none some n = if null some then none else some !! (n `mod` length some)

-- | The block of a plan.
planned :: (Env -> r -> e) -> Env -> Plan r -> Block e
planned end env plan = case plan of
  Done r -> pure (end env r)
  Retries -> retry
  ThrowsIt n -> throwInt (number env n)
  ReadsNumber v rest -> readVar (reference env v) >>= \it -> next env {numbers = it : numbers env} rest
  WritesNumber v n rest -> writeVar (reference env v) (number env n) >> next env rest
  ReadsFlag rest -> readVar flag >>= \it -> next env {truths = it : truths env} rest
  WritesFlag t rest -> writeVar flag (truth env t) >> next env rest
  ReadsSlot rest -> readVar slot >>= \it -> next env {references = it : references env} rest
  WritesSlot v rest -> writeVar slot (reference env v) >> next env rest
  WritesDone rest -> readVar done >>= writeVar done >> next env rest
  MakesNumber n rest -> newVar (number env n) >>= \it -> next env {references = it : references env} rest
  MakesTruth t rest -> newVar (truth env t) >>= readVar >>= \it -> next env {truths = it : truths env} rest
  LetsNumber n rest -> let' (number env n) >>= \it -> next env {numbers = it : numbers env} rest
  LetsTruth t rest -> let' (truth env t) >>= \it -> next env {truths = it : truths env} rest
  AsNumber it rest -> way number env it >>= \made -> next env {numbers = made : numbers env} rest
  AsTruth it rest -> way truth env it >>= \made -> next env {truths = made : truths env} rest
  AsReference it rest -> way reference env it >>= \made -> next env {references = made : references env} rest
  AsUnit it rest -> way (\_ _ -> ()) env it >> next env rest
  where
    next = planned end

way :: Result e => (Env -> r -> e) -> Env -> Way r -> Block e
way end env it = case it of
  Choice c l r -> if' (truth env c) (planned end env l) (planned end env r)
  Alternative l r -> planned end env l `orElse` planned end env r
  Handled l r -> planned end env l `catchInt` \n -> planned end env {numbers = n : numbers env} r

-- | How large plans are, and what is left out: large numbers and products, throws, new variables.
data Sizes = Sizes {hasLarge :: Bool, hasThrows :: Bool, hasNews :: Bool}

plans :: Sizes -> Int -> Gen r -> Gen (Plan r)
plans sizes size end
  | size <= 0 = frequency ([(8, Done <$> end), (2, pure Retries)] ++ [(1, ThrowsIt <$> numberPlan) | hasThrows sizes])
  | otherwise =
      frequency $
        [ (2, Done <$> end)
        , (4, ReadsNumber <$> referencePlan <*> rest)
        , (4, WritesNumber <$> referencePlan <*> numberPlan <*> rest)
        , (1, ReadsFlag <$> rest)
        , (1, WritesFlag <$> truthPlan <*> rest)
        , (1, ReadsSlot <$> rest)
        , (1, WritesSlot <$> referencePlan <*> rest)
        , (1, WritesDone <$> rest)
        , (1, LetsNumber <$> numberPlan <*> rest)
        , (1, LetsTruth <$> truthPlan <*> rest)
        , (2, AsNumber <$> ways numberPlan <*> rest)
        , (1, AsTruth <$> ways truthPlan <*> rest)
        , (1, AsReference <$> ways referencePlan <*> rest)
        , (2, AsUnit <$> ways (pure Unit') <*> rest)
        ]
          ++ [(1, MakesNumber <$> numberPlan <*> rest) | hasNews sizes]
          ++ [(1, MakesTruth <$> truthPlan <*> rest) | hasNews sizes]
  where
    rest = plans sizes (size - 1) end
    half :: Gen e -> Gen (Plan e)
    half = plans sizes (size `div` 2)
    ways :: Gen e -> Gen (Way e)
    ways it =
      frequency $
        [(2, Choice <$> truthPlan <*> half it <*> half it), (2, Alternative <$> half it <*> half it)]
          ++ [(2, Handled <$> half it <*> half it) | hasThrows sizes]
    numberPlan = numberOf (3 :: Int)
    numberOf depth =
      frequency $
        [(3, Literal <$> literal), (4, LocalNumber <$> choose (0, 3))]
          ++ [(2, op <$> numberOf (depth - 1) <*> numberOf (depth - 1)) | depth > 0, op <- [Sum, Difference] ++ [Product | hasLarge sizes]]
    literal
      | hasLarge sizes = frequency [(12, choose (-2, 3)), (1, elements [half', largest, -1 - largest, 3037000500])]
      | otherwise = choose (0, 3)
    largest = toInteger (maxBound :: Int)
    half' = largest `div` 2 + 1
    truthPlan = truthOf (2 :: Int)
    truthOf depth =
      frequency $
        [ (1, Constant <$> elements [False, True])
        , (2, LocalTruth <$> choose (0, 2))
        , (3, oneof [IsLess <$> numberPlan <*> numberPlan, IsAtMost <$> numberPlan <*> numberPlan, AreEqual <$> numberPlan <*> numberPlan])
        , (1, AreOne <$> referencePlan <*> referencePlan)
        ]
          ++ [(1, op <$> truthOf (depth - 1) <*> truthOf (depth - 1)) | depth > 0, op <- [Both, OneOf, AreSame]]
    referencePlan = oneof [ByName <$> choose (0, 3), LocalReference <$> choose (0, 2)]

-- | A block of one of the types, and how its result reads as a value.
data Any where
  Any :: Result r => Block r -> Any

anyBlock :: Gen Any
anyBlock = do
  size <- choose (0, 8)
  oneof
    [ Any . planned number start <$> plans whole size (Literal <$> choose (0, 3))
    , Any . planned number start <$> plans whole size (LocalNumber <$> choose (0, 3))
    , Any . planned truth start <$> plans whole size (LocalTruth <$> choose (0, 3))
    , Any . planned reference start <$> plans whole size (LocalReference <$> choose (0, 3))
    , Any . planned (\_ Unit' -> ()) start <$> plans whole size (pure Unit')
    ]
  where
    whole = Sizes True True True

-- | GHC's variables in the order of a desk's.
allVars :: Vars -> IO [SomeTVar]
allVars vars = mapM one variables
  where
    one (Declaration it) = case it of
      Declared (Named _ kind _) -> SomeTVar kind <$> STM.atomically (lookupVar vars it)
      _ -> error "no variable"

-- | A value of GHC's as a desk has it. A variable is known by its place among all; one from a place on is one that the block made.
valueOn :: Int -> [SomeTVar] -> Type t -> OnGHC t -> Value
valueOn old known kind it = case kind of
  IntType -> IntValue it
  BoolType -> BoolValue it
  UnitType -> UnitValue
  VarType inner -> case findIndex (isIt inner it) known of
    Just at | at < old -> RefValue (Ref at Nothing)
    Just at -> RefValue (NewRef (at - old))
    Nothing -> error "an unknown variable"
  where
    isIt :: Type t -> TVar (OnGHC t) -> SomeTVar -> Bool
    isIt inner v (SomeTVar kind' v') = case sameType inner kind' of
      Just Refl -> v == v'
      Nothing -> False

-- | What variables of GHC hold.
contents :: Int -> [SomeTVar] -> [SomeTVar] -> IO [Value]
contents old known = mapM (\(SomeTVar kind v) -> valueOn old known kind <$> readTVarIO v)

-- | A value of a type.
valueAs :: Type t -> t -> Value
valueAs kind it = case (kind, it) of
  (IntType, n) -> IntValue n
  (BoolType, c) -> BoolValue c
  (UnitType, ()) -> UnitValue
  (VarType _, Var to) -> RefValue to

textOf :: Any -> Either Limit String
textOf (Any block) = render block

-- | Runs a block on both, and says what it did.
inStep :: Desk -> Vars -> IORef [SomeTVar] -> Any -> IO String
inStep desk vars known (Any block) = do
  before <- readIORef known
  made <- newTVarIO []
  was <- contents maxBound before before
  predicted <- fmap (valueAs typeOf) <$> tryBlock desk block
  let keep :: Type e -> TVar (OnGHC e) -> STM.STM ()
      keep kind v = readTVar made >>= writeTVar made . (++ [SomeTVar kind v])
      run = (,) <$> runOnGHC keep vars block <*> readTVar made
      old = length before
  outcome <- try (STM.atomically ((Just <$> run) `STM.orElse` pure Nothing))
  case (predicted, outcome) of
    (Blocks, Right Nothing) -> pure "blocks"
    (Throws fault, Left fault') -> do
      fault `is` fault'
      ended <- finished desk block
      fmap (const ()) ended `isThrown` fault
      same was before
      pure (if fault == Overflowed then "overflows" else "throws")
    (Commits wrote new end, Right (Just (result', news'))) -> do
      let after = before ++ news'
      writeIORef known after
      contents old after news' >>= (`is` new)
      valueOn old after (kindOf' block) result' `is` end
      now <- contents old after before
      now `is` [maybe it id (lookup (Ref at Nothing) wrote) | (at, it) <- zip [0 ..] was]
      ended <- finished desk block
      case ended of
        Finished it [] -> valueAs (kindOf' block) it `is` valueOn maxBound after (kindOf' block) result'
        _ -> throwIO (userError ("finished as " ++ show (valueAs (kindOf' block) <$> ended)))
      contents maxBound after after >>= (`same` after)
      pure (if null new then "commits" else "makes variables")
    _ -> throwIO (userError ("on the desk " ++ show predicted ++ ", on GHC " ++ either show (maybe "blocks" (const "commits")) outcome))
  where
    kindOf' :: Result r => Block r -> Type (Returned r)
    kindOf' _ = typeOf
    finished on it = do
      ticket <- submit on it
      _ <- eval on
      finish on ticket
    isThrown ended fault = case ended of
      FinishedThrows fault' -> fault' `is` fault
      Finished _ _ -> throwIO (userError "it finished")
    same values _ = do
      cells <- store desk
      map valueNow cells `is` values

-- | So many random blocks, two hundred on each desk. Each kind of outcome has to occur.
blocks :: Int -> Int -> Options -> [Test]
blocks seed count options =
  [ test "blocks on a desk and on GHC" $ do
      counts <- newIORef Map.empty
      let groups = takeWhile ((< count) . head) (iterate (map (+ 200)) [0 .. 199])
      forM_ groups $ \numbers' -> withDesk options $ \desk -> do
        declareVars desk variables
        vars <- newVars variables
        known <- allVars vars >>= newIORef
        forM_ (takeWhile (< count) numbers') $ \at -> do
          let it = unGen anyBlock (mkQCGen (seed * 10000000 + at)) 30
          case textOf it of
            Left limit -> modifyIORef' counts (Map.insertWith (+) (show limit) (1 :: Int))
            Right text -> do
              did <- inStep desk vars known it `catch` \wrong ->
                throwIO (userError (displayException (wrong :: SomeException) ++ "\n    of " ++ text))
              modifyIORef' counts (Map.insertWith (+) did 1)
      all' <- readIORef counts
      putStrLn ("blocks: " ++ unwords [show n ++ " " ++ what ++ "," | (what, n) <- Map.toList all'])
      [what | what <- ["commits", "makes variables", "throws", "overflows", "blocks"], Map.notMember what all'] `is` []
  ]
