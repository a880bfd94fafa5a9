{-# LANGUAGE OverloadedStrings, RankNTypes, ScopedTypeVariables #-}

-- | A running desk: one function for each command of the console, and 'atomically'.
module Stmdesk.Desk
  ( -- * A desk
    Desk, Options (..), Sync (..), defaults, withDesk, withTransport
    -- * Commands
  , declareVar, declareVars, declareNow, tryBlock, looks, submit, eval, finish, atomicallyNow, cancel, standings, ready, readsOf, why, board
  , store, settle, drain, checkpoint, history
    -- * Transactions
  , atomically, atomicallyWithin
  ) where

import Control.Concurrent (MVar, forkIO, newEmptyMVar, putMVar, readMVar, tryPutMVar)
import Control.Concurrent.STM (TQueue, TVar, check, flushTQueue, newTQueueIO, newTVarIO, orElse, readTVar, throwSTM, writeTQueue, writeTVar)
import qualified Control.Concurrent.STM as STM
import Control.Exception
import Control.Monad (forM_, void, when)
import Data.ByteString.Char8 (ByteString)
import qualified Data.ByteString.Char8 as Bytes
import Data.Char (isDigit)
import Data.IORef
import Data.IntMap.Strict (IntMap)
import qualified Data.IntMap.Strict as IntMap
import Data.IntSet (IntSet)
import qualified Data.IntSet as IntSet
import Data.List (find)
import Data.Maybe (catMaybes, fromMaybe, isJust)
import Stmdesk.Answer
import Stmdesk.Language hiding (orElse)
import Stmdesk.Program
import Stmdesk.Refusal (Refusal (Late))
import qualified Stmdesk.Refusal as Refusal
import Stmdesk.Text (Declaring (..), Limit (TooLarge), render, renderDeclaration)
import System.Exit (ExitCode (..))
import System.Timeout (timeout)

-- | A running desk. Any number of threads may use it. A call that an asynchronous exception breaks off may or may not have had its
-- effect; the desk goes on. Every call throws 'Refused' if the program refuses its command, and a 'DeskError' if the desk can't go on.
data Desk = Desk
  { requests :: TQueue Request
  , over :: TVar (Maybe SomeException)  -- ^ What a call throws, when the desk is over.
  , isThrown :: TVar Bool  -- ^ Whether a call has thrown it.
  , closing :: TVar Bool
  , names :: IORef Names
  , keepsFile :: Bool
  }

-- | How a desk is started: @stmdesk run --help@ has what the options mean.
data Options = Options
  { program :: Maybe FilePath  -- ^ Else the one that 'Stmdesk.findProgram' finds.
  , journal :: Maybe FilePath  -- ^ Keeps the history in this file, and goes on from it (docs/JOURNAL.md).
  , sync :: Maybe Sync
  , checkpointEvery :: Maybe Int
  , workers :: Maybe Int
  , levels :: Maybe Int
  , maxEvents :: Maybe Int
  }
  deriving (Eq, Show)

-- | What is synced before an answer is written.
data Sync = Full | Sector | Append | None
  deriving (Eq, Show)

-- | No option.
--
-- >>> withDesk defaults eval
-- 0
-- >>> withDesk defaults {maxEvents = Just 0} (\desk -> submit desk (pure ()))
-- *** Exception: Refused {refused = HistoryFull, refusedAt = Nothing, overtaken = Nothing, refusedLine = "submit return ()"}
defaults :: Options
defaults = Options Nothing Nothing Nothing Nothing Nothing Nothing Nothing

-- | Microseconds that the program has to end when its input has ended.
patience :: Int
patience = 5000000

-- | Starts the program, does the body with a desk, and ends the program, however the body ends. If the body throws, the program is
-- killed; if it returns, the program has five seconds to end. Calls that other threads still make then throw 'Closed'. If the program
-- ended with an error that no call has thrown, as when it couldn't open the journal, 'Ended' is thrown in place of what the body returns.
--
-- >>> withDesk defaults (\desk -> do { x <- declareVar desk (variable "x" 1); store desk })
-- [Cell {variableOf = Ref 0 (Just "x"), kindOf = "Int", valueNow = IntValue 1, changes = 0}]
withDesk :: Options -> (Desk -> IO a) -> IO a
withDesk options body = do
  path <- findProgram (program options)
  withTransport (isJust (journal options)) (startPipe path ("run" : wordsOf options)) body
  where
    wordsOf it =
      concat
        [ maybe [] (\file -> ["--journal=" ++ file]) (journal it)
        , maybe [] (\mode -> ["--sync", case mode of { Full -> "full"; Sector -> "sector"; Append -> "append"; None -> "none" }]) (sync it)
        , number "--checkpoint-every" (checkpointEvery it)
        , number "--workers" (workers it)
        , number "--levels" (levels it)
        , number "--max-events" (maxEvents it)
        ]
    number name = maybe [] (\it -> [name, show it])

-- | The same over a console that runs in some other way, and that says whether it keeps a journal.
withTransport :: Bool -> IO Transport -> (Desk -> IO a) -> IO a
withTransport keeps start body = mask $ \restore -> do
  transport <- start
  desk <- Desk <$> newTQueueIO <*> newTVarIO Nothing <*> newTVarIO False <*> newTVarIO False <*> newIORef IntMap.empty <*> pure keeps
  done <- newEmptyMVar
  _ <- forkIO (serve desk transport `onException` putMVar done Nothing >>= putMVar done)
  let close = STM.atomically (writeTVar (closing desk) True) >> readMVar done
      abandon = kill transport >> uninterruptibleMask_ close
  it <- restore (body desk) `onException` abandon
  ended <- timeout patience close `onException` abandon
  known <- STM.readTVarIO (isThrown desk)
  case ended of
    Nothing -> it <$ abandon
    Just (Just end) | not known -> throwIO end
    _ -> pure it

-- Commands.

-- | Gives a command, and reads its answer.
ask :: Desk -> ByteString -> (Names -> [Words] -> Maybe a) -> IO a
ask desk line reading = do
  lines' <- askLines False desk line
  known <- readIORef (names desk)
  maybe (throwIO (badAnswer line lines')) pure (reading known (map Bytes.words lines'))

-- | Gives a command, and returns the lines of its answer. It may finish tickets without saying so.
askLines :: Bool -> Desk -> ByteString -> IO [ByteString]
askLines settles desk line = do
  when (Bytes.length line > 65536) (throwIO TooLarge)
  answer <- newEmptyMVar
  enqueue desk (Ask settles line answer)
  lines' <- readMVar answer >>= either throwIO pure
  known <- readIORef (names desk)
  mapM_ throwIO (refusalIn known line lines')
  pure lines'

refusalIn :: Names -> ByteString -> [ByteString] -> Maybe Refused
refusalIn known line lines' = case lines' of
  [it] -> refusal known line (Bytes.words it)
  _ -> Nothing

badAnswer :: ByteString -> [ByteString] -> DeskError
badAnswer line = BadAnswer (Bytes.unpack line) . Bytes.unpack . Bytes.unlines

-- | The lines before the last, which counts them.
counted :: ByteString -> [Words] -> Maybe [Words]
counted word them = case reverse them of
  end : before | numberAfter word end == Just (length before) -> Just (reverse before)
  _ -> Nothing

-- | Gives a command whose answer is one line.
askOne :: Desk -> ByteString -> (Names -> Words -> Maybe a) -> IO a
askOne desk line reading = ask desk line (\known them -> case them of { [it] -> reading known it; _ -> Nothing })

-- | The line of a command with a block. Throws a 'Limit' if the block is beyond one.
lineOf :: Result r => ByteString -> Block r -> IO ByteString
lineOf word block = either throwIO (pure . (word <>) . Bytes.pack) (render block)

about :: ByteString -> Ticket a -> ByteString
about word it = word <> Bytes.pack (show (ticketNumber it))

-- | Declares a variable. All declarations come before the first other command; later ones are refused as 'Refusal.Late', and 'declareNow'
-- takes them. On a desk with a journal that has a variable of this name and type already, it returns that one, and one that the journal
-- doesn't have it declares as 'declareNow' does: so a new release of a program may have more variables.
--
-- >>> withDesk defaults (\desk -> declareVar desk (variable "x" 1))
-- Var (Ref 0 (Just "x"))
declareVar :: Desk -> Exp (Var a) -> IO (Var a)
declareVar desk it = do
  declaring <- either throwIO pure (renderDeclaration it)
  answer <- try (declaredBy "tvar " "tvar" desk declaring)
  case answer of
    Right number -> named desk declaring number
    Left late
      | refused late == Late && keepsFile desk -> do
          known <- find (isNamed declaring . variableOf) <$> store desk
          case known of
            Just cell | kindOf cell == declaredType declaring, Ref number _ <- variableOf cell -> named desk declaring number
            Just _ -> throwIO late
            Nothing -> (declaredBy "declare " "declared" desk declaring `catch` unlessCommand late) >>= named desk declaring
      | otherwise -> throwIO late
  where
    isNamed declaring at = case at of { Ref _ (Just other) -> other == declaredName declaring; _ -> False }
    unlessCommand late other = throwIO (if refused other == Refusal.Command then late else other)  -- a program may know no `declare`

-- | Declares a variable at any time: the console's @declare@. It gets the next number of the store, and blocks that wait stay as they are.
-- A block that was refused as 'Refusal.Unknown' may be accepted afterwards.
--
-- >>> withDesk defaults (\desk -> atomically desk (newVar 7) >> declareNow desk (variable "x" 1))
-- Var (Ref 1 (Just "x"))
declareNow :: Desk -> Exp (Var a) -> IO (Var a)
declareNow desk it = do
  declaring <- either throwIO pure (renderDeclaration it)
  declaredBy "declare " "declared" desk declaring >>= named desk declaring

-- | Declares a variable by a command, whose answer begins with a word. Returns the variable's number.
declaredBy :: ByteString -> ByteString -> Desk -> Declaring -> IO Int
declaredBy command word desk declaring = askOne desk (command <> Bytes.pack (declaringText declaring)) (const number)
  where
    number them = case them of { [it, at, _] | it == word -> Bytes.stripPrefix "#" at >>= decimal; _ -> Nothing }

-- | The declared variable of this number, whose name is kept.
named :: Desk -> Declaring -> Int -> IO (Var a)
named desk declaring number = do
  atomicModifyIORef' (names desk) (\known -> (IntMap.insert number (declaredName declaring) known, ()))
  pure (Var (Ref number (Just (declaredName declaring))))

-- | Declares variables, in this order.
--
-- >>> withDesk defaults (\desk -> declareVars desk [declaration (variable "x" 1), declaration (variable "y" 2)] >> length <$> store desk)
-- 2
declareVars :: Desk -> [Declaration] -> IO ()
declareVars desk = mapM_ (\(Declaration it) -> void (declareVar desk it))

-- | What the block would do on the present store, which stays as it is.
--
-- >>> withDesk defaults (\desk -> tryBlock desk (newVar 5 >>= readVar))
-- Commits {writesOf = [], newsOf = [IntValue 5], resultOf = 5}
tryBlock :: forall r. Result r => Desk -> Block r -> IO (Verdict (Returned r))
tryBlock desk block = do
  line <- lineOf "try " block
  askOne desk line (\known them -> verdict known them >>= traverse (fromValue typeOf))

-- | What the block would read of the present store, with the values that it would find.
--
-- >>> withDesk defaults (\desk -> do { let { x = variable "x" 1 }; _ <- declareVar desk x; looks desk (readVar x) })
-- [(Ref 0 (Just "x"),IntValue 1)]
looks :: Result r => Desk -> Block r -> IO [(Ref, Value)]
looks desk block = lineOf "looks " block >>= \line -> askOne desk line readsIn

readsIn :: Names -> Words -> Maybe [(Ref, Value)]
readsIn known ("reads" : them) = assignments known them
readsIn _ _ = Nothing

-- | Lets the block wait, under a ticket.
--
-- >>> withDesk defaults (\desk -> submit desk (pure true))
-- ticket 1
submit :: forall r. Result r => Desk -> Block r -> IO (Ticket (Returned r))
submit desk block = do
  line <- lineOf "submit " block
  number <- askOne desk line (const (numberAfter "ticket"))
  pure (Ticket number (fromValue typeOf))

-- | Evaluates all tickets that are new or stale. Returns how many there were.
--
-- >>> withDesk defaults (\desk -> submit desk (pure true) >> eval desk)
-- 1
eval :: Desk -> IO Int
eval desk = askOne desk "eval" (const (numberAfter "evaluated"))

-- | Applies the verdict of a ticket that is current and doesn't block. The ticket then waits no more.
--
-- >>> withDesk defaults (\desk -> do { it <- submit desk (pure true); _ <- eval desk; finish desk it })
-- Finished True []
finish :: Desk -> Ticket a -> IO (Finished a)
finish desk it = askOne desk (about "finish " it) (\known them -> finished known them >>= traverse (readResult it))

-- | Submits, evaluates and finishes a block, as one: the console's @atomically@. If the block blocks it isn't finished, and waits under
-- its ticket, current; 'atomically' waits for its result, and this doesn't. If it is refused, it has no ticket. Other tickets stay as they
-- are, but for those that the finish makes stale.
--
-- >>> withDesk defaults (\desk -> atomicallyNow desk (pure true))
-- Ran (ticket 1) (Finished True [])
-- >>> withDesk defaults (\desk -> atomicallyNow desk (retry :: Block ()))
-- Waiting (ticket 1)
atomicallyNow :: forall r. Result r => Desk -> Block r -> IO (Ran (Returned r))
atomicallyNow desk block = do
  line <- lineOf "atomically " block
  askOne desk line (ran (fromValue typeOf))

-- | Ends the waiting of a ticket.
--
-- >>> withDesk defaults (\desk -> submit desk (retry :: Block ()) >>= cancel desk)
cancel :: Desk -> Ticket a -> IO ()
cancel desk it = askOne desk (about "cancel " it) (\_ them -> void (numberAfter "cancelled" them))

-- | How each waiting ticket stands, ascending: the console's @show@.
--
-- >>> withDesk defaults (\desk -> submit desk (pure ()) >> standings desk)
-- [(ticket 1,New)]
standings :: Desk -> IO [(Ticket Value, Standing)]
standings desk = ask desk "show" (\known them -> counted "waiting" them >>= mapM (standing known))

-- | The tickets that can be finished now, ascending.
--
-- >>> withDesk defaults (\desk -> submit desk (pure ()) >> eval desk >> ready desk)
-- [ticket 1]
ready :: Desk -> IO [Ticket Value]
ready desk = askOne desk "ready" (\_ them -> case them of { "ready" : rest -> tickets rest; _ -> Nothing })

-- | What the last evaluation of a ticket read, with the values that it found: the console's @reads@.
--
-- >>> withDesk defaults (\desk -> do { it <- submit desk (pure ()); _ <- eval desk; readsOf desk it })
-- []
readsOf :: Desk -> Ticket a -> IO [(Ref, Value)]
readsOf desk it = askOne desk (about "reads " it) readsIn

-- | What the block under a ticket waits for.
--
-- >>> withDesk defaults (\desk -> submit desk (retry :: Block ()) >>= why desk)
-- WaitsForEvaluation
why :: Desk -> Ticket a -> IO Reason
why desk it = askOne desk (about "why " it) reason

-- | Who waits for what: each waiting ticket with how it stands and what it waits for. It asks 'why' of each.
--
-- >>> withDesk defaults (\desk -> submit desk (retry :: Block ()) >> eval desk >> board desk)
-- [(ticket 1,Current Blocks,WaitsForChange [])]
board :: Desk -> IO [(Ticket Value, Standing, Reason)]
board desk = standings desk >>= fmap catMaybes . mapM withReason
  where
    withReason (it, how) = do
      answer <- try (why desk it)
      case answer of
        Right because -> pure (Just (it, how, because))
        Left gone
          | refused gone == Refusal.NoTicket -> pure Nothing  -- it finished meanwhile
          | otherwise -> throwIO gone

-- | All variables, ascending.
--
-- >>> withDesk defaults (\desk -> declareVar desk (variable "open" true) >> store desk)
-- [Cell {variableOf = Ref 0 (Just "open"), kindOf = "Bool", valueNow = BoolValue True, changes = 0}]
store :: Desk -> IO [Cell]
store desk = ask desk "store" (\known them -> counted "cells" them >>= cells known)

-- | Runs all that can run, in rounds: evaluates each ticket that is new or stale, then finishes the lowest that doesn't block. Throws
-- 'Awaited' while a block of 'atomically' waits.
--
-- >>> withDesk defaults (\desk -> submit desk (pure ()) >> settle desk)
-- Settled {finishedTickets = 1, evaluations = 1, stopped = Nothing}
settle :: Desk -> IO Settled
settle = settling "settle" "settled"

-- | The same, but evaluates each ticket only when it is its turn, the lowest first.
--
-- >>> withDesk defaults (\desk -> submit desk (pure ()) >> drain desk)
-- Settled {finishedTickets = 1, evaluations = 1, stopped = Nothing}
drain :: Desk -> IO Settled
drain = settling "drain" "drained"

settling :: ByteString -> ByteString -> Desk -> IO Settled
settling word done desk = do
  lines' <- askLines True desk word
  case lines' of
    [it] | Just did <- settled done (Bytes.words it) -> pure did
    _ -> throwIO (badAnswer word lines')

-- | Lets the events so far go, so that the history has room again. Returns how many they were.
--
-- >>> withDesk defaults (\desk -> submit desk (pure ()) >> checkpoint desk)
-- 1
checkpoint :: Desk -> IO Int
checkpoint desk = askOne desk "checkpoint" (const (numberAfter "checkpoint"))

-- | The text of all events so far, or of those since the last checkpoint (docs/HISTORY.md).
--
-- >>> withDesk defaults (\desk -> submit desk (pure ()) >> history desk) >>= Data.ByteString.Char8.putStr
-- {"format":3,"vars":0}
-- {"block":"return ()","client":0,"event":"submitted","ticket":1}
history :: Desk -> IO ByteString
history desk = Bytes.unlines <$> askLines False desk "history"

-- Transactions.

-- | Runs a block and returns its result. While the block retries, the call waits until others have changed what it read. Throws a
-- 'Stmdesk.Fault' if the block throws. If an asynchronous exception breaks the call off, the block is cancelled, unless it has finished
-- already.
--
-- Each call evaluates all that is new or stale on the desk, and finishes blocks of 'atomically' only. A block that nobody will ever let
-- go on waits for ever.
--
-- >>> withDesk defaults (\desk -> atomically desk (pure 7 :: Block (Exp Int)))
-- 7
-- >>> withDesk defaults (\desk -> atomically desk (throwInt 4 :: Block ()))
-- *** Exception: Thrown 4
atomically :: forall r. Result r => Desk -> Block r -> IO (Returned r)
atomically desk block = await desk (fmap Just) block >>= maybe (throwIO Cancelled) pure

-- | The same, for at most this many microseconds: 'Nothing' if the block couldn't finish. Then it had no effect. It is tried at least once,
-- and no more than that if the number isn't positive.
--
-- >>> withDesk defaults (\desk -> atomicallyWithin desk 1000 (retry :: Block ()))
-- Nothing
atomicallyWithin :: Result r => Desk -> Int -> Block r -> IO (Maybe (Returned r))
atomicallyWithin desk limit = await desk (timeout (max 0 limit))

-- | Gives a block to the desk and waits for its outcome, by a function that may give the waiting up.
await
  :: forall r. Result r => Desk -> (forall a. IO a -> IO (Maybe a)) -> Block r -> IO (Maybe (Returned r))
await desk waiting block = do
  line <- lineOf "submit " block
  when (Bytes.length line > 65536) (throwIO TooLarge)
  mask $ \restore -> do
    wait <- Wait line <$> newEmptyMVar <*> newIORef False <*> newIORef Nothing
    let withdraw = writeIORef (isWithdrawn wait) True >> giveUp
        giveUp = void (try (enqueue desk (GiveUp wait)) :: IO (Either SomeException ()))
    enqueue desk (Await wait)
    outcome <- restore (waiting (readMVar (outcomeOf wait))) `onException` withdraw
    case outcome of
      Just it -> Just <$> outcomeIn line it
      Nothing -> do
        giveUp
        it <- readMVar (outcomeOf wait) `onException` withdraw
        case it of
          Left error' | Just Cancelled <- fromException error' -> pure Nothing
          _ -> Just <$> outcomeIn line it
  where
    outcomeIn :: ByteString -> Outcome -> IO (Returned r)
    outcomeIn line outcome = do
      answer <- either throwIO pure outcome
      known <- readIORef (names desk)
      case finished known (Bytes.words answer) of
        Just (FinishedThrows fault) -> throwIO fault
        Just (Finished value _) | Just it <- fromValue typeOf value -> pure it
        _ -> throwIO (badAnswer line [answer])

-- The thread that speaks with the program.

-- | What a thread wants of the program.
data Request
  = Ask Bool ByteString (MVar (Either SomeException [ByteString]))  -- ^ The answer to a line; whether this settles the desk.
  | Await Wait
  | GiveUp Wait

-- | How a wait ended: with the line of its finish, or with what its caller throws.
type Outcome = Either SomeException ByteString

-- | A block that a caller gave to 'atomically'.
data Wait = Wait
  { lineOfWait :: ByteString
  , outcomeOf :: MVar Outcome
  , isWithdrawn :: IORef Bool  -- ^ Then it isn't submitted any more.
  , ticketIn :: IORef (Maybe Int)
  }

enqueue :: Desk -> Request -> IO ()
enqueue desk request = STM.atomically (readTVar (over desk) >>= maybe given isOver) >>= mapM_ throwIO
  where
    given = Nothing <$ writeTQueue (requests desk) request
    isOver why' = Just why' <$ writeTVar (isThrown desk) True

-- | The blocks of 'atomically'. A ticket that isn't due blocks on the present store: the last try to finish it, right after an evaluation,
-- was refused as that, and no finish since then has named it as stale. So no change is missed, and nobody polls.
data Waits = Waits
  { byTicket :: !(IntMap Wait)
  , due :: !IntSet  -- ^ Tickets of these that may be able to finish.
  , unwanted :: !IntSet  -- ^ Tickets that are to be cancelled.
  , mayCancel :: !Bool  -- ^ Whether there may be room in the history for that.
  , lastTicket :: !(Maybe Int)  -- ^ The last ticket that was given, if that is known.
  , noRoom :: !(Maybe Refused)  -- ^ Why the last evaluation was refused.
  }

data Console = Console
  { consoleOf :: Transport
  , unread :: IORef ByteString  -- ^ What was printed and isn't read yet.
  , waits :: IORef Waits
  , asked :: IORef [Request]  -- ^ What is being answered.
  , namesIn :: IORef Names
  }

-- | The program's output has ended.
data AtEnd = AtEnd
  deriving (Show)

instance Exception AtEnd

-- | A line with what to do with its answer.
type Item = (ByteString, [ByteString] -> IO ())

-- | Answers requests until the desk is closed or can't go on. Returns how the program ended, if that was by itself and with an error.
serve :: Desk -> Transport -> IO (Maybe DeskError)
serve desk transport = do
  console <- Console transport <$> newIORef Bytes.empty <*> newIORef (Waits IntMap.empty IntSet.empty IntSet.empty False Nothing Nothing)
    <*> newIORef [] <*> pure (names desk)
  stop <- try (work desk console)
  (why', status) <- case stop of
    Right () -> (,) (toException Closed) <$> ending patience
    Left error'
      | Just AtEnd <- fromException error' -> ended <$> ending patience
      | Just (_ :: IOException) <- fromException error' -> ended <$> ending patience
      | otherwise -> (,) error' (ExitSuccess, "") <$ kill transport <* ending 0
  left <- STM.atomically (writeTVar (over desk) (Just why') >> flushTQueue (requests desk))
  inWork <- readIORef (asked console)
  waiting <- IntMap.elems . byTicket <$> readIORef (waits console)
  let failing = inWork ++ map Await waiting ++ left
  when (either (const True) (const False) stop && not (null failing)) (STM.atomically (writeTVar (isThrown desk) True))
  mapM_ (fail' why') failing
  pure $ case status of
    (code@(ExitFailure number), said) | number > 0 -> Just (Ended code said)  -- not by a signal
    _ -> Nothing
  where
    ending limit = endInput transport >> awaitEnd transport limit
    ended it@(status, said) = (toException (Ended status said), it)
    fail' error' request = void $ case request of
      Ask _ _ answer -> tryPutMVar answer (Left error')
      Await wait -> tryPutMVar (outcomeOf wait) (Left error')
      GiveUp wait -> tryPutMVar (outcomeOf wait) (Left error')

-- | Takes requests and answers them, and goes on with what is due, until the desk is closed.
work :: Desk -> Console -> IO ()
work desk console = do
  isDue <- not . IntSet.null . due <$> readIORef (waits console)
  next <- STM.atomically (wanted isDue)
  case next of
    Stop -> pure ()
    Odd part -> modifyIORef' (unread console) (<> part) >> work desk console
    Work some -> do
      writeIORef (asked console) some
      answerAll console some
      finishDue console
      writeIORef (asked console) []
      work desk console
  where
    wanted isDue = (closing' >> pure Stop) `orElse` new `orElse` if isDue then pure (Work []) else output
    closing' = readTVar (closing desk) >>= check
    new = do
      some <- flushTQueue (requests desk)
      Work some <$ check (not (null some))
    output = printed (consoleOf console) >>= maybe (throwSTM AtEnd) (pure . Odd)

data Next = Stop | Odd ByteString | Work [Request]

-- | Answers requests in their order. Between two that neither settle nor give up, the program isn't waited for.
answerAll :: Console -> [Request] -> IO ()
answerAll console some = case some of
  [] -> pure ()
  GiveUp wait : rest -> giveUpOn console wait >> answerAll console rest
  Ask True line answer : rest -> do
    isAwaited <- not . IntMap.null . byTicket <$> readIORef (waits console)
    if isAwaited
      then void (tryPutMVar answer (Left (toException Awaited)))
      else exchange console [(line, void . tryPutMVar answer . Right)]
    answerAll console rest
  _ -> do
    let (now, rest) = span isPlain some
    next <- fmap (+ 1) . lastTicket <$> readIORef (waits console)
    itemsOf console next now >>= exchange console
    answerAll console rest
  where
    isPlain it = case it of
      Ask settles _ _ -> not settles
      Await _ -> True
      GiveUp _ -> False

-- | What to send for requests, given the next ticket. A block of 'atomically' is submitted, evaluated and tried in one go, with the ticket
-- that it should get. If a submission is refused, tickets are lower than that: then none of this number is given yet, and the finish is
-- refused and tried again.
itemsOf :: Console -> Maybe Int -> [Request] -> IO [Item]
itemsOf console next some = case some of
  Ask _ line answer : rest -> ((line, void . tryPutMVar answer . Right) :) <$> itemsOf console (after line) rest
  Await wait : rest -> do
    isGone <- readIORef (isWithdrawn wait)
    if isGone
      then tryPutMVar (outcomeOf wait) (Left (toException Cancelled)) >> itemsOf console next rest
      else (((lineOfWait wait, submitted console wait) : maybe [] (tries console) next) ++) <$> itemsOf console (fmap (+ 1) next) rest
  _ -> pure []
  where
    after line = if any (`Bytes.isPrefixOf` line) ["submit ", "atomically "] then fmap (+ 1) next else next

-- | What evaluates all, and tries to finish a ticket.
tries :: Console -> Int -> [Item]
tries console ticket = [("eval", evaluated), (line, tried console ticket line)]
  where
    line = "finish " <> Bytes.pack (show ticket)
    evaluated answer = do
      known <- readIORef (namesIn console)
      modifyIORef' (waits console) (\it -> it {noRoom = refusalIn known "eval" answer})

submitted :: Console -> Wait -> [ByteString] -> IO ()
submitted console wait answer = do
  known <- readIORef (namesIn console)
  case (refusalIn known (lineOfWait wait) answer, map (numberAfter "ticket" . Bytes.words) answer) of
    (Just error', _) -> void (tryPutMVar (outcomeOf wait) (Left (toException error')))
    (_, [Just ticket]) -> do
      writeIORef (ticketIn wait) (Just ticket)
      modifyIORef' (waits console) (\it -> it {byTicket = IntMap.insert ticket wait (byTicket it), due = IntSet.insert ticket (due it)})
    _ -> throwIO (badAnswer (lineOfWait wait) answer)

-- | Looks at the answer to a try to finish a ticket. One that finished was seen already.
tried :: Console -> Int -> ByteString -> [ByteString] -> IO ()
tried console ticket line answer = do
  known <- readIORef (namesIn console)
  now <- readIORef (waits console)
  case (refusalIn known line answer, IntMap.lookup ticket (byTicket now)) of
    (Just error', Just wait)
      | refused error' == Refusal.Blocks -> writeIORef (waits console) now {due = IntSet.delete ticket (due now)}
      | otherwise -> do
          dismiss console ticket
          void (tryPutMVar (outcomeOf wait) (Left (toException (fromMaybe error' (noRoom now)))))
    _ -> pure ()

-- | Takes a ticket from those that are waited for to those that are to be cancelled.
dismiss :: Console -> Int -> IO ()
dismiss console ticket = modifyIORef' (waits console) $ \it ->
  it
    { byTicket = IntMap.delete ticket (byTicket it)
    , due = IntSet.delete ticket (due it)
    , unwanted = IntSet.insert ticket (unwanted it)
    , mayCancel = True
    }

-- | Tries once to finish each ticket that is due.
finishDue :: Console -> IO ()
finishDue console = do
  some <- IntSet.toAscList . due <$> readIORef (waits console)
  exchange console (concatMap (tries console) some)

-- | Cancels a block, after a try if there was none yet.
giveUpOn :: Console -> Wait -> IO ()
giveUpOn console wait = do
  known <- readIORef (ticketIn wait)
  forM_ known $ \ticket -> do
    isDue <- IntSet.member ticket . due <$> readIORef (waits console)
    isGone <- readIORef (isWithdrawn wait)
    when (isDue && not isGone) (finishDue console)
    isWaiting <- IntMap.member ticket . byTicket <$> readIORef (waits console)
    when isWaiting $ do
      dismiss console ticket
      exchange console []
      void (tryPutMVar (outcomeOf wait) (Left (toException Cancelled)))

-- | Sends lines, and does with each answer what is to be done. Then cancels what is to be cancelled.
exchange :: Console -> [Item] -> IO ()
exchange console items = do
  mapM_ part (parts items)
  now <- readIORef (waits console)
  when (mayCancel now) $ do
    writeIORef (waits console) now {mayCancel = False}
    mapM_ part (parts [("cancel " <> Bytes.pack (show it), const (pure ())) | it <- IntSet.toAscList (unwanted now)])
  where
    part some = do
      give (consoleOf console) (Bytes.unlines (concatMap (sent . fst) some))
      forM_ some $ \(line, act) -> do
        answer <- answerTo console line
        see console line answer
        act answer
    sent line = if line == "history" then [line, "take 0"] else [line]

-- | Cuts what is sent into parts that a pipe takes at once. While a longer line is written, no answer is outstanding.
parts :: [Item] -> [[Item]]
parts items = case items of
  [] -> []
  first : rest -> let (some, others) = fit (size first) rest in (first : some) : parts others
  where
    size (line, _) = Bytes.length line + 16
    fit total (it : rest) | total + size it <= 4096 = let (some, others) = fit (total + size it) rest in (it : some, others)
    fit _ rest = ([], rest)

-- | Looks at the answer to a line for what it says of blocks of 'atomically', whoever asked.
see :: Console -> ByteString -> [ByteString] -> IO ()
see console line answer = case map Bytes.words answer of
  [["ticket", it]] -> given it
  [["waits", it]] -> given it
  [["cancelled", it]] -> ending it (Left (toException Cancelled)) []
  ["finished" : it : rest] -> do
    when ("atomically " `Bytes.isPrefixOf` line) (given it)
    ending it (Right (Bytes.concat answer)) (drop 3 rest)  -- after its result, or what it throws
  [["checkpoint", _]] -> modifyIORef' (waits console) (\now -> now {mayCancel = not (IntSet.null (unwanted now))})
  _ -> pure ()
  where
    given it = forM_ (decimal it) (\ticket -> modifyIORef' (waits console) (\now -> now {lastTicket = Just ticket}))
    ending it outcome stale = forM_ (decimal it) $ \ticket -> do
      now <- readIORef (waits console)
      let left = IntMap.delete ticket (byTicket now)
          again = IntSet.fromList [number | Just number <- map decimal stale, IntMap.member number left]
      writeIORef (waits console) now
        {byTicket = left, due = IntSet.delete ticket (due now) <> again, unwanted = IntSet.delete ticket (unwanted now)}
      forM_ (IntMap.lookup ticket (byTicket now)) (\wait -> tryPutMVar (outcomeOf wait) outcome)

-- | The lines of the answer to a line: docs/CONSOLE.md says where it ends.
answerTo :: Console -> ByteString -> IO [ByteString]
answerTo console line = do
  first <- readLine console line
  case line of
    _ | "refused " `Bytes.isPrefixOf` first -> pure [first]
    "store" -> upTo "cells " (Bytes.isPrefixOf "#") [] first
    "show" -> upTo "waiting " (any (isDigit . fst) . Bytes.uncons) [] first
    "history" -> init <$> upTo "jobs none" (Bytes.isPrefixOf "{") [] first
    _ -> pure [first]
  where
    upTo end isBefore before it
      | end `Bytes.isPrefixOf` it = pure (reverse (it : before))
      | isBefore it = readLine console line >>= upTo end isBefore (it : before)
      | otherwise = throwIO (badAnswer line [it])

-- | The next line that the program prints.
readLine :: Console -> ByteString -> IO ByteString
readLine console line = do
  text <- readIORef (unread console)
  case Bytes.elemIndex '\n' text of
    Just at -> Bytes.take at text <$ writeIORef (unread console) (Bytes.drop (at + 1) text)
    Nothing -> do
      when (Bytes.length text > 16 * 1024 * 1024) (throwIO (badAnswer line [Bytes.take 200 text]))
      part <- STM.atomically (printed (consoleOf console)) >>= maybe (throwIO AtEnd) pure
      writeIORef (unread console) (text <> part)
      readLine console line
