-- | Desks: answers as values, what is thrown, many threads, and calls that are broken off. Expected answers are from docs/CONSOLE.md.
module Desks (desks) where

import Check
import Control.Concurrent
import Control.Exception
import Control.Monad (forM, forM_, replicateM, replicateM_, unless, void, when)
import qualified Data.ByteString.Char8 as Bytes
import Data.List (intercalate, isInfixOf)
import Stmdesk
import Stmdesk.Explore
import qualified Stmdesk.Refusal as Refusal
import System.Directory
import System.Exit (ExitCode (..))
import System.FilePath (takeDirectory, (</>))
import System.Posix.Env (getEnv, setEnv, unsetEnv)
import System.Posix.Resource (Resource (ResourceStackSize), ResourceLimit (ResourceLimit), getResourceLimit, setResourceLimit, softLimit)
import System.Process (readProcessWithExitCode)
import System.Timeout (timeout)

x, y :: Exp (Var Int)
x = variable "x" 1
y = variable "y" 0

slot :: Exp (Var (Var Int))
slot = variable "slot" x

atLeast :: Exp Int -> Block (Exp Int)
atLeast n = do
  now <- readVar x
  check' (n <=. now)
  pure now

desks :: FilePath -> [Test]
desks path =
  [ test "answers" $ on $ \desk -> do
      declareVar desk x >>= (`is` Var xRef)
      declareVar desk slot >>= (`is` Var slotRef)
      tryBlock desk (modifyVar x (+ 1) >> newVar (7 :: Exp Int))
        >>= (`is` Commits [(xRef, IntValue 2)] [IntValue 7] (Var (NewRef 0)))
      tryBlock desk (pure x) >>= (`is` Commits [] [] (Var xRef))
      tryBlock desk (throwInt 4 :: Block ()) >>= (`is` Throws (Thrown 4))
      tryBlock desk (pure (9223372036854775807 + 1 :: Exp Int)) >>= (`is` Throws Overflowed)
      tryBlock desk (retry :: Block ()) >>= (`is` Blocks)
      looks desk (readVar slot >>= readVar) >>= (`is` [(xRef, IntValue 1), (slotRef, RefValue xRef)])
      looks desk (writeVar x 1) >>= (`is` [])
      waiting <- submit desk (atLeast 5)
      writing <- submit desk (writeVar x 5)
      standings desk >>= (`is` [(1, New), (2, New)]) . numbered
      why desk waiting >>= shows' "WaitsForEvaluation"
      eval desk >>= (`is` 2)
      standings desk >>= (`is` [(1, Current Blocks), (2, Current (Commits [(xRef, IntValue 5)] [] UnitValue))]) . numbered
      why desk waiting >>= shows' "WaitsForChange [(Ref 0 (Just \"x\"),IntValue 1)]"
      readsOf desk waiting >>= (`is` [(xRef, IntValue 1)])
      map ticketNumber <$> ready desk >>= (`is` [2])
      board desk >>= (`is` [1, 2]) . map (\(ticket, _, _) -> ticketNumber ticket)
      finish desk writing >>= shows' "Finished () [ticket 1]"
      why desk waiting >>= shows' "StaleBy (ticket 2) [(Ref 0 (Just \"x\"),IntValue 1,IntValue 5)]"
      standings desk >>= (`is` [(1, Stale Blocks)]) . numbered
      checkpoint desk >>= (`is` 5)
      why desk waiting >>= shows' "StaleBy (ticket 2) [(Ref 0 (Just \"x\"),IntValue 1,IntValue 5)]"
      eval desk >>= (`is` 1)
      why desk waiting >>= shows' "IsReady"
      finish desk waiting >>= shows' "Finished 5 []"
      throwing <- submit desk (throwInt (-3) :: Block (Exp Int))
      _ <- eval desk
      finish desk throwing >>= shows' "FinishedThrows (Thrown (-3))"
      _ <- submit desk (modifyVar x (* 2) >> newVar true)
      _ <- submit desk (atLeast 99)
      settle desk >>= (`is` Settled 1 3 Nothing)
      drain desk >>= (`is` Settled 0 0 Nothing)
      store desk
        >>= ( `is`
                [ Cell xRef "Int" (IntValue 10) 2
                , Cell slotRef "TVar Int" (RefValue xRef) 0
                , Cell (Ref 2 Nothing) "Bool" (BoolValue True) 0
                ]
            )
      text <- history desk
      Bytes.length (Bytes.take 11 text) `is` 11
      -- The checkpoint had a stale block, with its cause.
      Bytes.take 11 text `is` Bytes.pack "{\"format\":5"
  , test "refusals" $ on $ \desk -> do
      _ <- declareVar desk x
      refused' Refusal.Twice (declareVar desk x)
      refused' Refusal.Unknown (declareVar desk (variable "z" (variable "gone" true)))
      it <- throws (tryBlock desk (readVar y))
      (refused it, refusedAt it, refusedLine it) `is` (Refusal.Unknown, Just 9, "try readTVar y")
      refused' Refusal.Late (declareVar desk y)
      ticket <- submit desk (retry :: Block ())
      refused' Refusal.NotEvaluated (finish desk ticket)
      refused' Refusal.NotEvaluated (readsOf desk ticket)
      _ <- eval desk
      refused' Refusal.Blocks (finish desk ticket)
      cancel desk ticket
      refused' Refusal.NoTicket (cancel desk ticket)
      refused' Refusal.NoTicket (finish desk ticket)
      refused' Refusal.NoTicket (why desk ticket)
      throws (submit desk (pure (9223372036854775808 :: Exp Int))) >>= (`is` NumberOutOfRange 9223372036854775808)
      settle desk >>= (`is` Settled 0 0 Nothing)
  , test "a full history" $ withDesk options {maxEvents = Just 3} $ \desk -> do
      _ <- declareVar desk x
      atomically desk (modifyVar x (+ 1))
      refused' Refusal.HistoryFull (atomically desk (modifyVar x (+ 1)))
      checkpoint desk >>= (`is` 3)
      _ <- submit desk (retry :: Block ())
      _ <- submit desk (retry :: Block ())
      -- there is room for its submission, and for nothing more; what it left is cancelled when there is room
      refused' Refusal.HistoryFull (atomically desk (modifyVar x (+ 1)))
      length <$> standings desk >>= (`is` 3)
      settle desk >>= (`is` Settled 0 0 (Just Refusal.HistoryFull))
      checkpoint desk >>= (`is` 3)
      length <$> standings desk >>= (`is` 2)
      tryBlock desk (readVar x) >>= (`is` Commits [] [] 2)
  , test "transactions at once" $ on $ \desk -> do
      _ <- declareVar desk x
      atomicallyNow desk (modifyVar x (+ 1)) >>= shows' "Ran (ticket 1) (Finished () [])"
      answer <- atomicallyNow desk (atLeast 5)
      shows' "Waiting (ticket 2)" answer
      standings desk >>= (`is` [(2, Current Blocks)]) . numbered
      atomicallyNow desk (writeVar x 5 >> pure x) >>= shows' "Ran (ticket 3) (Finished (Var (Ref 0 (Just \"x\"))) [ticket 2])"
      standings desk >>= (`is` [(2, Stale Blocks)]) . numbered
      atomicallyNow desk (throwInt 4 :: Block ()) >>= shows' "Ran (ticket 4) (FinishedThrows (Thrown 4))"
      atomicallyNow desk (newVar true) >>= shows' "Ran (ticket 5) (Finished (Var (Ref 1 Nothing)) [])"
      it <- throws (atomicallyNow desk (readVar y))
      (refused it, refusedAt it, refusedLine it) `is` (Refusal.Unknown, Just 9, "atomically readTVar y")
      throws (atomicallyNow desk (pure (9223372036854775808 :: Exp Int))) >>= (`is` NumberOutOfRange 9223372036854775808)
      _ <- eval desk
      -- the ticket of a block that waited knows its type
      case answer of
        Waiting ticket -> finish desk ticket >>= shows' "Finished 5 []"
        Ran _ _ -> fail "it can't have finished"
  , test "transactions at once beside blocks that wait" $ on $ \desk -> do
      _ <- declareVar desk x
      ends <- mapM (inThread . atomically desk . atLeast) [5, 6]
      untilWaits desk 2
      atomicallyNow desk (writeVar x 6) >>= shows' "Ran (ticket 3) (Finished () [ticket 1,ticket 2])"
      mapM joined ends >>= (`is` [6, 6])
      atomically desk (readVar x) >>= (`is` 6)
      atomicallyNow desk (readVar x) >>= shows' "Ran (ticket 5) (Finished 6 [])"
      -- what waits by it isn't finished by anybody else's block
      atomicallyNow desk (atLeast 9) >>= shows' "Waiting (ticket 6)"
      atomically desk (writeVar x 9)
      atomically desk (pure ())
      standings desk >>= (`is` [(6, Current (Commits [] [] (IntValue 9)))]) . numbered
      settle desk >>= (`is` Settled 1 0 Nothing)
  , test "transactions at once in a full history" $ withDesk options {maxEvents = Just 4} $ \desk -> do
      refused' Refusal.Unknown (atomicallyNow desk (readVar y))
      atomicallyNow desk (retry :: Block ()) >>= shows' "Waiting (ticket 1)"
      refused' Refusal.HistoryFull (atomicallyNow desk (pure ()))
      atomicallyNow desk (retry :: Block ()) >>= shows' "Waiting (ticket 2)"
      refused' Refusal.HistoryFull (atomicallyNow desk (retry :: Block ()))
      standings desk >>= (`is` [(1, Current Blocks), (2, Current Blocks)]) . numbered
      checkpoint desk >>= (`is` 4)
      atomicallyNow desk (pure true) >>= shows' "Ran (ticket 3) (Finished True [])"
  , test "threads that count" $ on $ \desk -> do
      _ <- declareVar desk x
      ends <- replicateM 8 (inThread (replicateM_ 50 (atomically desk (modifyVar x (+ 1)))))
      mapM_ joined ends
      valueOf' desk x >>= (`is` 401)
      standings desk >>= (`is` []) . numbered
  , test "threads that wait for each other" $ on $ \desk -> do
      declareVars desk [declaration x, declaration y]
      -- y counts the rounds: thread n goes on when y is n modulo 4
      ends <- forM [0 .. 3] $ \n -> inThread $ forM_ [0 .. 24] $ \part -> atomically desk $ do
        now <- readVar y
        check' (now ==. fromInteger (4 * part + n))
        writeVar y (now + 1)
      mapM_ joined ends
      valueOf' desk y >>= (`is` 100)
  , test "all calls from many threads" $ on $ \desk -> do
      _ <- declareVar desk x
      ends <- forM [1 .. 4 :: Int] $ \n -> inThread $ replicateM_ 8 $ do
        ticket <- submit desk (modifyVar x (+ 1))
        _ <- eval desk
        _ <- standings desk
        _ <- board desk
        _ <- store desk
        _ <- history desk
        atomically desk (modifyVar x (+ 1))
        _ <- atomicallyNow desk (modifyVar x (+ 1))
        when (even n) (cancel desk ticket)
      mapM_ joined ends
      done <- settle desk
      finishedTickets done `is` 16
      valueOf' desk x >>= (`is` 81)
  , test "a wait that a finish of others ends" $ on $ \desk -> do
      _ <- declareVar desk x
      end <- inThread (atomically desk (atLeast 5))
      untilWaits desk 1
      throws (settle desk) >>= (`is` Awaited)
      throws (drain desk) >>= (`is` Awaited)
      writing <- submit desk (writeVar x 5)
      _ <- eval desk
      _ <- finish desk writing
      joined end >>= (`is` 5)
      settle desk >>= (`is` Settled 0 0 Nothing)
  , test "a wait that others cancel" $ on $ \desk -> do
      end <- inThread (atomically desk (retry :: Block ()))
      untilWaits desk 1
      [(ticket, _)] <- standings desk
      cancel desk ticket
      throws (joined end) >>= (`is` Cancelled)
  , test "a wait that is broken off" $ on $ \desk -> do
      _ <- declareVar desk x
      replicateM_ 20 $ do
        end <- newEmptyMVar
        thread <- forkIO (try (atomically desk (atLeast 5)) >>= putMVar end)
        untilWaits desk 1
        killThread thread
        broken <- takeMVar end
        either fromException (const Nothing) broken `is` Just ThreadKilled
        standings desk >>= (`is` []) . numbered
      atomically desk (writeVar x 5)
      atomically desk (atLeast 5) >>= (`is` 5)
  , test "calls that are broken off" $ on $ \desk -> do
      _ <- declareVar desk x
      forM_ [0 .. 300] $ \n -> void (timeout n (atomically desk (modifyVar x (+ 1)) >> standings desk))
      standings desk >>= (`is` []) . numbered
      now <- valueOf' desk x
      atomically desk (modifyVar x (+ 1))
      valueOf' desk x >>= (`is` (now + 1))
  , test "a wait with a limit" $ on $ \desk -> do
      _ <- declareVar desk x
      atomicallyWithin desk 1000 (atLeast 5) >>= (`is` Nothing)
      forM_ [0, -1, minBound] $ \none -> atomicallyWithin desk none (atLeast 5) >>= (`is` Nothing)
      atomicallyWithin desk 0 (modifyVar x (+ 1)) >>= (`is` Just ())
      atomicallyWithin desk 60000000 (atLeast 2) >>= (`is` Just 2)
      throws (atomicallyWithin desk 60000000 (throwInt 4 :: Block ())) >>= (`is` Thrown 4)
      standings desk >>= (`is` []) . numbered
  , test "what a block throws" $ on $ \desk -> do
      _ <- declareVar desk x
      throws (atomically desk (writeVar x 9 >> throwInt 4 :: Block ())) >>= (`is` Thrown 4)
      throws (atomically desk (writeVar x (9223372036854775807 + 1))) >>= (`is` Overflowed)
      throws (atomically desk (catchInt (pure (9223372036854775807 + 1)) pure)) >>= (`is` Overflowed)
      atomically desk (catchInt (writeVar x 9 >> throwInt 4) (\n -> (+ n) <$> readVar x)) >>= (`is` 5)
      valueOf' desk x >>= (`is` 1)
  , test "large answers" $ on $ \desk -> do
      mapM_ (\n -> declareVar desk (variable ("v" ++ show n) (fromInteger n))) [1 .. 500]
      replicateM_ 1500 (submit desk (readVar (variable "v7" 7)))
      eval desk >>= (`is` 1500)
      length <$> standings desk >>= (`is` 1500)
      length <$> store desk >>= (`is` 500)
      length . Bytes.lines <$> history desk >>= (`is` 3501)
      settle desk >>= (`is` Settled 1500 0 Nothing)
  , test "the end of a desk" $ do
      left' <- withDesk options pure
      throws (eval left') >>= (`is` Closed)
      throws (withDesk options (\_ -> throwIO (userError "mine")) :: IO ()) >>= (`is` userError "mine")
      end <- withDesk options $ \desk -> do
        end <- inThread (atomically desk (retry :: Block ()))
        end <$ untilWaits desk 1
      throws (joined end) >>= (`is` Closed)
  , test "a desk in a file" $ inFolder $ \folder -> do
      let kept = options {journal = Just (folder </> "kept"), sync = Just None, checkpointEvery = Just 10}
      withDesk kept $ \desk -> do
        declareVars desk [declaration x, declaration slot]
        replicateM_ 9 (atomically desk (modifyVar x (+ 1)))
      withDesk kept $ \desk -> do
        declareVars desk [declaration x, declaration slot]
        refused' Refusal.Late (declareVar desk (variable "x" true))
        atomically desk (atLeast 10) >>= (`is` 10)
        atomically desk (readVar slot) >>= (`is` Var xRef)
      Ended status said <- throws (withDesk options {journal = Just folder} eval)
      (status == ExitSuccess, null said) `is` (False, False)
  , test "variables at any time" $ on $ \desk -> do
      declareNow desk x >>= (`is` Var xRef)
      refused' Refusal.Late (declareVar desk y)
      atomically desk (newVar true) >>= (`is` Var (Ref 1 Nothing))
      waiting <- submit desk (atLeast 5)
      _ <- eval desk
      refused' Refusal.Unknown (tryBlock desk (readVar y))
      declareNow desk y >>= (`is` Var (Ref 2 (Just "y")))
      tryBlock desk (readVar y) >>= (`is` Commits [] [] 0)
      standings desk >>= (`is` [(2, Current Blocks)]) . numbered  -- ticket 1 made the variable
      declareNow desk slot >>= (`is` Var (Ref 3 (Just "slot")))
      looks desk (readVar slot >>= readVar) >>= (`is` [(xRef, IntValue 1), (Ref 3 (Just "slot"), RefValue xRef)])
      refused' Refusal.Twice (declareNow desk y)
      it <- throws (declareNow desk (variable "z" (variable "gone" true)))
      (refused it, refusedAt it, refusedLine it) `is` (Refusal.Unknown, Just 16, "declare z : TVar Bool = gone")
      throws (declareNow desk (variable "z" (9223372036854775808 :: Exp Int))) >>= (`is` NumberOutOfRange 9223372036854775808)
      _ <- atomicallyNow desk (writeVar x 5)
      _ <- eval desk
      finish desk waiting >>= shows' "Finished 5 []"
      map variableOf <$> store desk >>= (`is` [xRef, Ref 1 Nothing, Ref 2 (Just "y"), Ref 3 (Just "slot")])
      Bytes.take 11 <$> history desk >>= (`is` Bytes.pack "{\"format\":5")
  , test "variables at any time, in a full history" $ withDesk options {maxEvents = Just 1} $ \desk -> do
      _ <- declareNow desk x
      refused' Refusal.HistoryFull (declareNow desk y)
      checkpoint desk >>= (`is` 1)
      declareNow desk y >>= (`is` Var (Ref 1 (Just "y")))
  , test "a new release on the file of an old one" $ inFolder $ \folder -> do
      let kept = options {journal = Just (folder </> "kept"), sync = Just None}
      withDesk kept $ \desk -> declareVars desk [declaration x] >> atomically desk (modifyVar x (+ 1))
      withDesk kept $ \desk -> do
        declareVars desk [declaration x, declaration slot]
        declareVar desk y >>= (`is` Var (Ref 2 (Just "y")))
        atomically desk (readVar slot >>= readVar >>= writeVar y)
      withDesk kept $ \desk -> do
        declareVars desk [declaration x, declaration slot, declaration y]
        refused' Refusal.Late (declareVar desk (variable "y" true))
        map valueNow <$> store desk >>= (`is` [IntValue 2, RefValue xRef, IntValue 2])
      let answers = "case $word in tvar) echo refused Late;; store) echo cells 0;; *) echo refused Command;; esac"
      old <- standIn folder ["while read word rest; do", answers, "done"]
      withDesk kept {program = Just old} $ \desk -> refused' Refusal.Late (declareVar desk y)
  , test "a program that ends" $ inFolder $ \folder -> do
      dying <- standIn folder ["read line", "echo ticket 1", "read line", "echo 'out of luck' >&2", "exit 4"]
      withDesk options {program = Just dying} $ \desk -> do
        _ <- submit desk (pure ())
        let ended = Ended (ExitFailure 4) "out of luck"
        throws (eval desk) >>= (`is` ended)
        throws (eval desk) >>= (`is` ended)
        throws (atomically desk (pure ())) >>= (`is` ended)
      -- a wait ends, too, though no line is sent
      answering <- standIn folder ["for a in 'ticket 1' 'evaluated 1' 'refused Blocks'; do read line; echo $a; done", "sleep 0.2"]
      withDesk options {program = Just answering} $ \desk ->
        throws (atomically desk (retry :: Block ())) >>= (`is` Ended ExitSuccess "")
  , test "a program that ends with an error, seen by no call" $ inFolder $ \folder -> do
      let inFolder' = options {journal = Just folder}
      Ended status said <- throws (withDesk inFolder' pure)
      (status == ExitSuccess, folder `isInfixOf` said) `is` (False, True)
      -- what a call has thrown isn't thrown again
      withDesk inFolder' (throws . eval) >>= (`is` Ended status said)
      throws (withDesk inFolder' (const (throwIO (userError "mine"))) :: IO ()) >>= (`is` userError "mine")
      atLast <- standIn folder ["read line", "echo evaluated 0", "cat >/dev/null", "echo 'no room, naïve' >&2", "exit 3"]
      throws (withDesk options {program = Just atLast} eval) >>= (`is` Ended (ExitFailure 3) "no room, naïve")
  , test "a program that is another one" $ inFolder $ \folder -> do
      let never' = ["hello", "evaluated", "evaluated x", "evaluated 1 2", "cells 1", "#0 x", "7 new", "{}", "", "waiting x", "refused"]
      forM_ never' $ \said -> do
        other <- standIn folder ["read line", "cat <<'END'", said, "END", "read line", "cat >/dev/null"]
        withDesk options {program = Just other} $ \desk -> do
          BadAnswer sent answer <- throws (eval desk)
          (sent, answer) `is` ("eval", said ++ "\n")
        unless (said == "7 new") $ withDesk options {program = Just other} $ \desk -> do
          BadAnswer sent _ <- throws (standings desk)
          sent `is` "show"
  , test "a program that doesn't end" $ inFolder $ \folder -> do
      stuck <- standIn folder ["trap '' TERM", "echo $$ >" ++ folder </> "number", "exec sleep 1000"]
      let body desk = timeout 1000 (eval desk) >> waitForFile (folder </> "number") >> throwIO (userError "mine")
      throws (withDesk options {program = Just stuck} body :: IO ()) >>= (`is` userError "mine")
      number <- readFile (folder </> "number")
      (status, _, _) <- readProcessWithExitCode "kill" ["-0", takeWhile (/= '\n') number] ""
      status `is` ExitFailure 1
  , test "no program" $ inFolder $ \folder -> do
      it <- try (withDesk options {program = Just (folder </> "none")} eval) :: IO (Either IOException Int)
      either (("this is no executable file" `isInfixOf`) . show) (const False) it `is` True
      Ended status _ <- throws (withDesk options {workers = Just 65} eval)
      status `is` ExitFailure 2
  , test "where the program is found" $ inFolder $ \above' -> withFoundFirst [] $ do
      let folder = above' </> "some places, naïve"
          repository = folder </> "clone"
          ticketOf given = withDesk defaults {program = given} (\desk -> ticketNumber <$> submit desk (retry :: Block ()))
          finds place number = do
            findProgram Nothing >>= (`is` place)
            ticketOf Nothing >>= (`is` number)
          inside = withCurrentDirectory (repository </> "crates")
      [given, named, onPath, built] <- mapM (\(name, n) -> ticketing (folder </> name) n) (zip ["given", "named", "path", "built"] [1 ..])
      launcher <- launching repository (Left "")
      let looked = ["no path is given", "STMDESK isn't set", "no folder above " ++ folder ++ " or ", "no folder of the PATH"]
      withCurrentDirectory folder (missing looked (ticketOf Nothing))
      -- a repository without a program, and one in it, too
      _ <- launching repository (Left "stmdesk: it isn't built")
      inside (missing [repository ++ " has none (stmdesk: it isn't built)", "no folder of the PATH"] (ticketOf Nothing))
      inner <- takeDirectory <$> launching (repository </> "crates" </> "inner") (Left "stmdesk: nor is this one")
      withCurrentDirectory inner (missing [inner ++ " has none (stmdesk: nor", repository ++ " has none (stmdesk: it"] (ticketOf Nothing))
      withFoundFirst [folder </> "path"] (inside (finds onPath 3))
      -- one with a program
      _ <- launching repository (Right built)
      withFoundFirst [folder </> "path"] $ do
        withCurrentDirectory inner (finds built 4)
        inside $ do
          finds built 4
          setEnv "STMDESK" "" True >> finds built 4
          setEnv "STMDESK" "stmdesk" True >> finds onPath 3
          setEnv "STMDESK" "../../named/stmdesk" True >> ticketOf Nothing >>= (`is` 2)
          setEnv "STMDESK" named True >> finds named 2
          ticketOf (Just given) >>= (`is` 1)
          ticketOf (Just "../../given/stmdesk") >>= (`is` 1)
          ticketOf (Just "stmdesk") >>= (`is` 3)
          forM_ [folder, folder </> "none", "none", "../none"] $ \no ->
            setEnv "STMDESK" no True >> missing ["STMDESK names " ++ show no ++ ", which isn't"] (ticketOf Nothing)
          -- the script raises a limit of the stack that is too low, and the program doesn't
          unsetEnv "STMDESK"
          limits <- getResourceLimit ResourceStackSize
          (`finally` setResourceLimit ResourceStackSize limits) $ do
            setResourceLimit ResourceStackSize limits {softLimit = ResourceLimit (1024 * 1024)}
            findProgram Nothing >>= (`is` launcher)
  , test "a repository whose program isn't there" $ inFolder $ \folder -> withFoundFirst [folder </> "clone"] $ do
      launcher <- launching (folder </> "clone") (Left "stmdesk: release/ was made from other sources")
      let refuses given = do
            missing [folder </> "clone", "release/ was made from other sources"] (withDesk defaults {program = given} eval)
            missing ["other sources"] (explore everyOrder {exploreProgram = given} (Protocol [] [] []))
      mapM_ refuses [Nothing, Just launcher, Just "stmdesk"]
      createFileLink launcher (folder </> "link")
      refuses (Just (folder </> "link"))
      forM_ ["stmdesk", launcher, folder </> "link"] $ \named -> setEnv "STMDESK" named True >> refuses Nothing
      unsetEnv "STMDESK"
      setPermissions launcher . setOwnerExecutable False =<< getPermissions launcher
      withCurrentDirectory (folder </> "clone") (missing [folder </> "clone has none ("] (withDesk defaults eval))
      -- a script that doesn't know the question
      _ <- scriptAt launcher ["cat >/dev/null"]
      missing [folder </> "clone has none"] (withDesk defaults {program = Just launcher} eval)
  , test "clients in threads of GHC's" $ do
      vars <- newVars [declaration x, declaration y]
      let waits = Client "waits" [step "wait" (atLeast 5)]
      -- a block that throws has ended, and changed nothing
      missed <- runClients vars [Client "throws" [step "throw" (writeVar x 9 >> throwInt 1 :: Block ()), expect x 1, expect y 1]]
      missed `is` [At 0 2 "throws" "expect y"]
      -- an exception ends the threads
      broken <- newEmptyMVar
      thread <- mask_ (forkIOWithUnmask (\unmask -> try (unmask (runClients vars [waits])) >>= putMVar broken))
      yield >> killThread thread
      either fromException (const Nothing) <$> takeMVar broken >>= (`is` Just ThreadKilled)
      throws (newVars [declaration slot]) >>= (`is` Undeclared "x")
      throws (newVars [declaration x, declaration x]) >>= (`is` TwoOfName "x")
      throws (runClients vars [Client "none" [step "read" (readVar slot)]]) >>= (`is` Undeclared "slot")
      throws (runClients vars [Client "other" [step "read" (readVar (variable "x" true))]]) >>= (`is` TwoOfName "x")
  , test "explorations that are refused" $ do
      let one = Client "one" [step "read" (readVar x)]
          explored it = explore everyOrder {exploreProgram = Just path} it
      throws (explored (Protocol [] [] [one])) >>= (`is` Undeclared "x")
      throws (explored (Protocol [declaration x, declaration x] [] [one])) >>= (`is` TwoOfName "x")
      throws (explored (Protocol [declaration (variable "x" true)] [] [one])) >>= (`is` TwoOfName "x")
      throws (explored (Protocol [declaration slot, declaration x] [] [one])) >>= (`is` Undeclared "x")
      throws (explored (Protocol [declaration x] [] [])) >>= (`is` ScriptRefused 2 "")
      throws (explored (Protocol [declaration x] [] (replicate 65 one))) >>= (`is` ScriptRefused 194 "client")
      found <- explored (Protocol [] [] (replicate 64 (Client "idle" [step "nothing" (pure ())])))
      (outcome found, endedStates found) `is` (AllRight, 1)
      few <- explore everyOrder {exploreProgram = Just path, maxStates = Just 1} (Protocol [declaration x] [] [one])
      outcome few `is` NotAll
  , test "explorations with other answers" $ inFolder $ \folder -> do
      let said lines' status = do
            other <- standIn folder (["cat >/dev/null", "cat <<'END'"] ++ lines' ++ ["END", "exit " ++ show (status :: Int)])
            explore everyOrder {exploreProgram = Just other} (Protocol [] [] [Client "one" [step "nothing" (pure ())]])
          one = At 0 0 "one" "nothing"
      -- a kind of fault, of client and of line that this package doesn't know
      found <- said ["states 2 steps 1", "ended 0", "spoiled line 3", "order none", "client 0 line 3 sleeps soundly", "step 1 client 0"] 3
      (outcome found, trace found, heldUp found) `is` (OtherFault "spoiled line 3", [], [(one, OtherHeld "sleeps soundly")])
      -- what no version prints
      let odd' =
            [ (["hello"], 0), ([], 0), (["states 1 steps 0", "ended 0", "right"], 3)
            , (["states 1 steps 0", "ended 0", "deadlock", "order none"], 0)
            , (["states 1 steps 0", "ended 0", "broken line 2", "order 0 0"], 3), (["states 1 steps 0", "ended 1", "#0 x", "right"], 0)
            ]
      forM_ odd' $ \(lines', status) -> do
        BadAnswer sent _ <- throws (said lines' status)
        sent `is` "explore"
      throws (said [] 4) >>= (`is` Ended (ExitFailure 4) "")
  ]
  where
    options = defaults {program = Just path}
    on :: (Desk -> IO ()) -> IO ()
    on = withDesk options
    xRef = Ref 0 (Just "x")
    slotRef = Ref 1 (Just "slot")
    numbered them = [(ticketNumber ticket, how) | (ticket, how) <- them]
    valueOf' desk v = atomically desk (readVar v)

shows' :: Show a => String -> a -> IO ()
shows' wanted it = show it `is` wanted

refused' :: Refusal.Refusal -> IO a -> IO ()
refused' wanted act = throws act >>= \it -> refused it `is` wanted

inThread :: IO a -> IO (MVar (Either SomeException a))
inThread act = do
  end <- newEmptyMVar
  end <$ mask_ (forkIOWithUnmask (\unmask -> try (unmask act) >>= putMVar end))

joined :: MVar (Either SomeException a) -> IO a
joined end = takeMVar end >>= either throwIO pure

-- | Waits until so many tickets wait.
untilWaits :: Desk -> Int -> IO ()
untilWaits desk count = do
  now <- standings desk
  unless (length [() | (_, Current Blocks) <- now] == count) (yield >> untilWaits desk count)

waitForFile :: FilePath -> IO ()
waitForFile file = do
  there <- doesFileExist file
  unless there (threadDelay 1000 >> waitForFile file)

-- | Does something with a new folder, which is gone afterwards.
inFolder :: (FilePath -> IO a) -> IO a
inFolder = bracket made removePathForcibly
  where
    made = do
      above <- getTemporaryDirectory
      let go n = do
            let folder = above </> ("stmdesk-" ++ show (n :: Int))
            new <- try (createDirectory folder) :: IO (Either IOException ())
            either (const (go (n + 1))) (const (pure folder)) new
      go 1

-- | A shell script that stands in for the program.
standIn :: FilePath -> [String] -> IO FilePath
standIn folder = scriptAt (folder </> "program")

scriptAt :: FilePath -> [String] -> IO FilePath
scriptAt file lines' = do
  writeFile file (unlines ("#!/bin/sh" : lines'))
  setPermissions file . setOwnerExecutable True =<< getPermissions file
  pure file

-- | A program in a folder that gives this ticket to the first block.
ticketing :: FilePath -> Int -> IO FilePath
ticketing folder number = do
  createDirectoryIfMissing True folder
  scriptAt (folder </> "stmdesk") ["read line", "echo ticket " ++ show number]

-- | The script of a repository with a release, which says where its program is, or why there is none, and runs all commands at the end of
-- its input.
launching :: FilePath -> Either String FilePath -> IO FilePath
launching repository which = do
  mapM_ (createDirectoryIfMissing True . (repository </>)) ["crates/stmdesk", "release"]
  writeFile (repository </> "release" </> "stmdesk.xz") ""
  scriptAt (repository </> "stmdesk") ["[ \"$*\" = --which ] || { cat >/dev/null; exit; }", said]
  where
    said = either (\why' -> "echo \"" ++ why' ++ "\" >&2; exit 1") (\path -> "echo '" ++ path ++ "'") which

-- | Does something with these folders at the front of the @PATH@, and without @STMDESK@.
withFoundFirst :: [FilePath] -> IO a -> IO a
withFoundFirst folders act = bracket (mapM (\name -> (,) name <$> getEnv name) ["PATH", "STMDESK"]) (mapM_ restore) $ \_ -> do
  setEnv "PATH" (intercalate ":" (folders ++ ["/usr/bin", "/bin"])) True
  unsetEnv "STMDESK"
  act
  where
    restore (name, it) = maybe (unsetEnv name) (\before -> setEnv name before True) it

-- | Looks for these parts in why there is no program.
missing :: [String] -> IO a -> IO ()
missing parts act = do
  it <- throws act
  case it of
    NoProgram places -> forM_ parts (\part -> (part, part `isInfixOf` places, places) `is` (part, True, places))
    other -> throwIO other
