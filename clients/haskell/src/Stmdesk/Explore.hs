{-# LANGUAGE ExistentialQuantification, GADTs, OverloadedStrings, ScopedTypeVariables #-}

-- | Protocols of several clients: every order of their steps by @stmdesk explore@, and the same steps on GHC's STM.
module Stmdesk.Explore
  ( -- * Protocols
    Protocol (..), Client (..), Step (..), step, expect, Invariant (..), always, never, eventually
    -- * Every order
  , explore, ExploreOptions (..), everyOrder, Exploration (..), Outcome (..), At (..), Held (..), explained, scriptOf
    -- * On GHC
  , runClients, follow, Happened (..)
  ) where

import Control.Concurrent (forkIOWithUnmask, killThread, newEmptyMVar, putMVar, takeMVar)
import Control.Concurrent.STM (STM)
import qualified Control.Concurrent.STM as STM
import Control.Exception (BlockedIndefinitelyOnMVar (..), SomeException, catch, mask, onException, throwIO, try)
import Control.Monad (foldM, foldM_, forM, unless, when)
import Data.ByteString.Char8 (ByteString)
import qualified Data.ByteString.Char8 as Bytes
import qualified Data.IntMap.Strict as IntMap
import Data.List (intercalate)
import qualified Data.Map.Strict as Map
import Stmdesk.Answer
import Stmdesk.GHC
import Stmdesk.Language
import Stmdesk.Program
import Stmdesk.Text
import System.Exit (ExitCode (..))

-- $setup
-- >>> import Data.Function ((&))

-- | What several clients do, over these variables, and what should hold in every state that they can reach (docs/EXPLORE.md).
data Protocol = Protocol
  { variablesOf :: [Declaration]  -- ^ A variable that is another one's first value is given before it.
  , invariantsOf :: [Invariant]
  , clientsOf :: [Client]
  }

-- | A client: its name, and its steps, of which it does one after another.
data Client = Client {clientName :: String, clientSteps :: [Step]}

-- | A step of a client, with a name for traces.
data Step
  = -- | Finishes a block. While the block retries, the client waits.
    forall r. Result r => Run String (Block r)
  | -- | Finds this value in the variable, however long it stays at this step.
    forall a. Expect (Exp (Var a)) (Exp a)

-- | A block as a step, with a name for traces.
--
-- >>> let x = variable "x" 1
-- >>> either show (unlines . fst) (scriptOf (Protocol [declaration x] [] [Client "ann" [step "reset" (writeVar x 0)]])) & putStr
-- tvar x : Int = 1
-- client
-- submit writeTVar x 0
-- finish 1
step :: Result r => String -> Block r -> Step
step = Run

-- | An expectation as a step.
--
-- >>> let x = variable "x" 1
-- >>> found <- explore everyOrder (Protocol [declaration x] [] [Client "ann" [step "reset" (writeVar x 0), expect x 1]])
-- >>> putStr (explained found)
-- missed: ann: expect x
-- 1. ann: reset
expect :: Exp (Var a) -> Exp a -> Step
expect = Expect

-- | What should hold in every state, with a name: the block always returns 'true' there, or never does anything but retry, or an order
-- of steps leads from there to a state in which it returns 'true'.
data Invariant
  = Always String (Block (Exp Bool))
  | forall r. Result r => Never String (Block r)
  | Eventually String (Block (Exp Bool))

-- | The block returns 'true' in every state.
--
-- >>> let x = variable "x" 1
-- >>> let positive = always "x is positive" ((0 <.) <$> readVar x)
-- >>> found <- explore everyOrder (Protocol [declaration x] [positive] [Client "ann" [step "reset" (writeVar x 0)]])
-- >>> outcome found
-- Broken "x is positive"
always :: String -> Block (Exp Bool) -> Invariant
always = Always

-- | The block retries in every state.
--
-- >>> let x = variable "x" 1
-- >>> let large = never "x is large" (readVar x >>= \a -> check' (9 <. a))
-- >>> found <- explore everyOrder (Protocol [declaration x] [large] [Client "ann" [step "reset" (writeVar x 0)]])
-- >>> outcome found
-- AllRight
never :: Result r => String -> Block r -> Invariant
never = Never

-- | From every state an order of steps, perhaps of none, leads to a state in which the block returns 'true'. So it does wherever all clients
-- are at their end. No fairness is assumed (docs/EXPLORE.md, "Progress").
--
-- >>> let x = variable "x" 1
-- >>> let zero = eventually "x is zero" ((==. 0) <$> readVar x)
-- >>> found <- explore everyOrder (Protocol [declaration x] [zero] [Client "ann" [step "reset" (writeVar x 0), step "set" (writeVar x 1)]])
-- >>> putStr (explained found)
-- never reached: x is zero
-- 1. ann: reset
-- 2. ann: set
eventually :: String -> Block (Exp Bool) -> Invariant
eventually = Eventually

-- | How @stmdesk explore@ is run.
data ExploreOptions = ExploreOptions
  { exploreProgram :: Maybe FilePath  -- ^ Else the one that 'Stmdesk.findProgram' finds.
  , maxStates :: Maybe Int  -- ^ How many states are kept at most, 1,000,000 if nothing is said.
  , allStates :: Bool  -- ^ Whether each state that can be reached is met, even if it can't matter.
  , asksProgress :: Bool  -- ^ Whether it is a fault if a client can't ever do its next step again.
  }
  deriving (Eq, Show)

-- | No option.
--
-- >>> statesMet <$> explore everyOrder {allStates = True} (Protocol [] [] [Client "ann" [step "nothing" (pure ())]])
-- 2
everyOrder :: ExploreOptions
everyOrder = ExploreOptions Nothing Nothing False False

-- | A step of a client: the client and the step by number, from 0, and by name.
data At = At {clientAt :: Int, stepAt :: Int, clientNamed :: String, stepNamed :: String}
  deriving (Eq, Ord, Show)

-- | Whether there is a fault, and which: of the first state that has one.
data Outcome
  = -- | No order leads to a deadlock, breaks an invariant or misses an expectation.
    AllRight
  | -- | More states can be reached than may be kept, and no fault is in those that were.
    NotAll
  | -- | Nobody can go on, and somebody isn't at the end.
    Deadlock
  | -- | The invariant of this name doesn't hold.
    Broken String
  | -- | The expectation at this step isn't met.
    Missed At
  | -- | The client of this name isn't at its end, and can't ever do its next step, whatever the clients do.
    Stuck String
  | -- | No state can be reached from here in which the block of the 'eventually' of this name returns 'true'.
    NeverReached String
  | -- | A fault that this package doesn't know, as the program prints it.
    OtherFault String
  deriving (Eq, Show)

-- | Why a client is where it is, in the state with the fault: its block retries, and what it read; it could go on; or the store has
-- no room for the variables that the block makes; or what else the program prints.
data Held = Waits [(Ref, Value)] | CanGoOn | NoRoom | OtherHeld String
  deriving (Eq, Show)

-- | What was found (docs/EXPLORE.md, "Output").
data Exploration = Exploration
  { outcome :: Outcome
  , statesMet :: Integer  -- ^ How many states were met.
  , stepsMet :: Integer  -- ^ How many steps go from those that were searched.
  , endedStates :: Integer  -- ^ In how many of these every client is at its end.
  , endings :: [[Cell]]  -- ^ The store of the first ten of these.
  , trace :: [At]  -- ^ A shortest way to the fault.
  , heldUp :: [(At, Held)]  -- ^ After a fault, the clients that aren't at their end.
  }
  deriving (Eq, Show)

-- | The script of a protocol, which @stmdesk explore@ reads, and where in it invariants and steps are, by the lines counted from 1.
--
-- >>> scriptOf (Protocol [] [] [Client "ann" [step "nothing" (pure ())]])
-- Right (["client","submit return ()","finish 1"],[(3,Right (At {clientAt = 0, stepAt = 0, clientNamed = "ann", stepNamed = "nothing"}))])
scriptOf :: Protocol -> Either Limit ([String], [(Int, Either String At)])
scriptOf protocol = do
  declarations <- mapM (\(Declaration it) -> renderDeclaration it) (variablesOf protocol)
  foldM_ declared Map.empty declarations
  let known = Map.fromList [(declaredName it, it) | it <- declarations]
      block :: Result r => String -> Block r -> Either Limit String
      block word it = do
        (text, named) <- rendered it
        mapM_ (isKnown known) (Map.elems named)
        line (word ++ " " ++ text)
      invariant it = case it of
        Always name holds -> (,) (Left name) <$> block "always" holds
        Never name blocks -> (,) (Left name) <$> block "never" blocks
        Eventually name holds -> (,) (Left name) <$> block "eventually" holds
      stepLines at it = case it of
        Run _ run -> (\text n -> ([(Nothing, text), (Just at, "finish " ++ show n)], n + 1)) <$> block "submit" run
        Expect variable' value -> do
          isKnown known (Declaration variable')
          text <- expectation variable' value
          pure (\n -> ([(Just at, text)], n))
      clientLines (number, client) = do
        some <- mapM (uncurry stepLines) (zip (placesOf number client) (clientSteps client))
        pure ((Nothing, "client") : numbered (1 :: Int) some)
      numbered _ [] = []
      numbered n (make : rest) = let (some, next) = make n in some ++ numbered next rest
  tvars <- mapM (line . ("tvar " ++) . declaringText) declarations
  invariants <- mapM invariant (invariantsOf protocol)
  clients <- concat <$> mapM clientLines (zip [0 ..] (clientsOf protocol))
  let all' = [(Nothing, it) | it <- tvars] ++ [(Just what, it) | (what, it) <- invariants] ++ [(Right <$> what, it) | (what, it) <- clients]
  pure (map snd all', [(number, it) | (number, (Just it, _)) <- zip [1 ..] all'])
  where
    line it = if length it > 65536 then Left TooLarge else Right it
    declared known it = do
      when (Map.member (declaredName it) known) (Left (TwoOfName (declaredName it)))
      mapM_ (\to -> unless (Map.member to known) (Left (Undeclared to))) (refersTo it)
      pure (Map.insert (declaredName it) () known)
    isKnown known (Declaration it) = do
      named <- renderDeclaration it
      case Map.lookup (declaredName named) known of
        Nothing -> Left (Undeclared (declaredName named))
        Just other -> when (other /= named) (Left (TwoOfName (declaredName named)))
    expectation :: Exp (Var a) -> Exp a -> Either Limit String
    expectation (Declared (Named name kind _)) value = do
      found <- renderDeclaration (Declared (Named name kind value))
      pure (unwords ["expect", name, drop (length (name ++ " : " ++ declaredType found ++ " = ")) (declaringText found)])
    expectation _ _ = error "a local left its block"

-- | The steps of a client by number and name.
placesOf :: Int -> Client -> [At]
placesOf number client = [At number at (clientName client) (nameOf it) | (at, it) <- zip [0 ..] (clientSteps client)]
  where
    nameOf it = case it of
      Run name _ -> name
      Expect variable' _ -> "expect " ++ show (Declaration variable')

-- | Searches every order in which the clients can do their steps. Throws a 'Limit' if the protocol has a block that is beyond one or a
-- variable that isn't declared, 'ScriptRefused' if the program refuses a line (there may be 64 clients), and 'Ended' if it ends otherwise.
--
-- >>> let permits = variable "permits" 1
-- >>> let look = step "look" (readVar permits >>= \p -> check' (0 <. p))
-- >>> let [take', give] = [step name (modifyVar permits (+ n)) | (name, n) <- [("take", -1), ("give", 1)]]
-- >>> let clients = [Client name [look, take', give] | name <- ["ann", "bob"]]
-- >>> found <- explore everyOrder (Protocol [declaration permits] [always "enough" ((0 <=.) <$> readVar permits)] clients)
-- >>> putStr (explained found)
-- broken: enough
-- 1. ann: look
-- 2. bob: look
-- 3. ann: take
-- 4. bob: take
explore :: ExploreOptions -> Protocol -> IO Exploration
explore options protocol = do
  (script, places) <- either throwIO pure (scriptOf protocol)
  path <- findProgram (exploreProgram options)
  let words' = "explore" : maybe [] (\most -> ["--max-states", show most]) (maxStates options) ++ ["--all" | allStates options]
        ++ ["--progress" | asksProgress options]
  (status, text, said) <- runOnce path words' (Bytes.pack (unlines script))
  let refusedAtLine = [number | it <- lines said, Just rest <- [Bytes.stripPrefix "stmdesk: script line " (Bytes.pack it)]
                    , Just (number, _) <- [Bytes.readInt rest]]
  case (status, refusedAtLine) of
    (ExitFailure 1, number : _) -> throwIO (ScriptRefused number (concat (take 1 (drop (number - 1) script))))
    _ | status `notElem` [ExitSuccess, ExitFailure 3] -> throwIO (Ended status said)
    _ -> case explorationIn protocol (IntMap.fromList places) (Bytes.lines text) of
      Just found | (outcome found == AllRight) == (status == ExitSuccess) -> pure found
      _ -> throwIO (BadAnswer "explore" (Bytes.unpack text ++ said))

-- | What the program printed.
explorationIn :: Protocol -> IntMap.IntMap (Either String At) -> [ByteString] -> Maybe Exploration
explorationIn protocol places text = case text of
  counts : ended : rest
    | ["states", states, "steps", steps] <- Bytes.words counts
    , ["ended", ends] <- Bytes.words ended -> do
        (stores, rest') <- storesIn rest
        fault : after <- Just rest'
        Exploration <$> outcomeIn fault <*> natural states <*> natural steps <*> natural ends <*> pure stores
          <*> (traceOf =<< orderIn after) <*> mapM heldIn (takeWhile ("client " `Bytes.isPrefixOf`) (drop 1 after))
  _ -> Nothing
  where
    names = IntMap.fromList (zip [0 ..] (map show (variablesOf protocol)))
    natural it = case Bytes.readInteger it of
      Just (n, "") | n >= 0 -> Just n
      _ -> Nothing
    storesIn some = case span ("#" `Bytes.isPrefixOf`) some of
      (store, end : rest) | "cells " `Bytes.isPrefixOf` end -> do
        one <- cells names (map Bytes.words store)
        (others, rest') <- storesIn rest
        pure (one : others, rest')
      ([], _) -> Just ([], some)
      _ -> Nothing
    outcomeIn it = case Bytes.words it of
      ["right"] -> Just AllRight
      ["incomplete"] -> Just NotAll
      ["deadlock"] -> Just Deadlock
      ["broken", "line", at] | Just (Left name) <- placeOf at -> Just (Broken name)
      ["missed", "line", at] | Just (Right place') <- placeOf at -> Just (Missed place')
      ["stuck", "client", at] | Just number <- decimal at, client : _ <- drop number (clientsOf protocol) -> Just (Stuck (clientName client))
      ["never", "reached", "line", at] | Just (Left name) <- placeOf at -> Just (NeverReached name)
      _ -> Just (OtherFault (Bytes.unpack it))
    placeOf it = decimal it >>= (`IntMap.lookup` places)
    orderIn some = case map Bytes.words (take 1 some) of
      ["order" : them] -> mapM decimal (filter (/= "none") them)
      _ -> Just []
    traceOf order = snd <$> foldM goOn (IntMap.fromList (zip [0 ..] (zipWith placesOf [0 ..] (clientsOf protocol))), []) order
    goOn (rest, before) client = case IntMap.lookup client rest of
      Just (now : later) -> Just (IntMap.insert client later rest, before ++ [now])
      _ -> Nothing
    heldIn it = case Bytes.words it of
      "client" : _ : "line" : at : what | Just (Right place') <- placeOf at -> (,) place' <$> heldBy what
      _ -> Nothing
    heldBy it = case it of
      ["ready"] -> Just CanGoOn
      ["refused", "CellsFull"] -> Just NoRoom
      "waits" : reads' -> Waits <$> assignments names reads'
      _ -> Just (OtherHeld (Bytes.unpack (Bytes.unwords it)))

-- | What was found, in lines for people: the fault, a shortest way there, and for what who waits.
--
-- >>> let x = variable "x" 1
-- >>> found <- explore everyOrder (Protocol [declaration x] [] [Client "ann" [step "wait" (readVar x >>= \a -> check' (a ==. 2))]])
-- >>> putStr (explained found)
-- deadlock
-- ann: wait waits for a change of x = 1
explained :: Exploration -> String
explained found = unlines (what : [show n ++ ". " ++ placed it | (n, it) <- zip [1 :: Int ..] (trace found)] ++ held)
  where
    what = case outcome found of
      AllRight -> "right: " ++ show (statesMet found) ++ " states"
      NotAll -> "incomplete: " ++ show (statesMet found) ++ " states"
      Deadlock -> "deadlock"
      Broken name -> "broken: " ++ name
      Missed it -> "missed: " ++ placed it
      Stuck name -> "stuck: " ++ name
      NeverReached name -> "never reached: " ++ name
      OtherFault it -> it
    placed it = clientNamed it ++ ": " ++ stepNamed it
    held = [placed it ++ " waits for a change of " ++ intercalate ", " (map read' them) | (it, Waits them) <- heldUp found]
    read' (it, value) = named it ++ " = " ++ shown value
    named it = case it of
      Ref number name -> maybe ('#' : show number) id name
      NewRef number -> "new" ++ show number
    shown it = case it of
      IntValue n -> show n
      BoolValue b -> show b
      UnitValue -> "()"
      RefValue to -> named to

-- | Runs the clients for real: each in a thread of its own, block after block, each by 'STM.atomically'. Returns when all have ended, with
-- the expectations that weren't met. A block that throws has ended, as in an exploration. If a client waits for ever, so does this call,
-- unless GHC sees it and throws @BlockedIndefinitelyOnSTM@; an exception ends all clients.
--
-- >>> let x = variable "x" 1
-- >>> vars <- newVars [declaration x]
-- >>> let ann = Client "ann" [step "wait" (readVar x >>= \a -> check' (a ==. 2)), expect x 2]
-- >>> runClients vars [ann, Client "bob" [step "set" (writeVar x 2)]]
-- []
runClients :: Vars -> [Client] -> IO [At]
runClients vars clients = mask $ \restore -> do
  started <- forM (zip [0 ..] clients) $ \(number, client) -> do
    end <- newEmptyMVar
    thread <- forkIOWithUnmask (\unmask -> try (unmask (allSteps number client)) >>= putMVar end)
    pure (thread, end)
  let missed = concat <$> mapM (\(_, end) -> taken end >>= either (\it -> throwIO (it :: SomeException)) pure) started
  restore missed `onException` mapM_ (killThread . fst) started
  where
    -- If a client waits for ever, so does this thread, and GHC tells both; the client's exception is the one to throw.
    taken end = takeMVar end `catch` \BlockedIndefinitelyOnMVar -> takeMVar end
    allSteps number client = concat <$> mapM (uncurry doStep) (zip (placesOf number client) (clientSteps client))
    doStep at it = do
      done <- STM.atomically (stepOn vars it)
      pure [at | done == NotMet]

-- | What a step did on GHC.
data Happened
  = Went
  | Threw Fault
  | NotMet
  | -- | The block retries.
    Retried
  | -- | The client has no step left.
    NoStep
  deriving (Eq, Show)

-- | Does the clients' steps on GHC in an order, given as clients by number, and says what each did. A step that retries doesn't count:
-- the client is still at it.
--
-- >>> let x = variable "x" 1
-- >>> vars <- newVars [declaration x]
-- >>> follow vars [Client "ann" [step "wait" (readVar x >>= \a -> check' (a ==. 2))], Client "bob" [step "set" (writeVar x 2)]] [0, 1, 0]
-- [Retried,Went,Went]
follow :: Vars -> [Client] -> [Int] -> IO [Happened]
follow vars clients order = reverse . snd <$> foldM goOn (IntMap.fromList (zip [0 ..] (map clientSteps clients)), []) order
  where
    goOn (rest, before) client = case IntMap.lookup client rest of
      Just (now : later) -> do
        happened <- STM.atomically (stepOn vars now `STM.orElse` pure Retried)
        pure (if happened `elem` [Retried, NotMet] then rest else IntMap.insert client later rest, happened : before)
      _ -> pure (rest, NoStep : before)

-- | A step on GHC; it retries if its block does.
stepOn :: Vars -> Step -> STM Happened
stepOn vars it = case it of
  Run _ block -> (Went <$ toSTM vars block) `STM.catchSTM` (pure . Threw)
  Expect variable' value -> do
    holds <- toSTM vars (isEqual variable' value)
    pure (if holds then Went else NotMet)
  where
    isEqual :: Exp (Var a) -> Exp a -> Block (Exp Bool)
    isEqual variable'@(Declared (Named _ kind _)) value = (\now -> Equal kind now value) <$> readVar variable'
    isEqual _ _ = error "a local left its block"
