-- | Finds the program, and runs it.
module Stmdesk.Program (findProgram, Transport (..), startPipe, runOnce) where

import Control.Concurrent (ThreadId, forkIOWithUnmask, killThread, modifyMVar, newMVar, threadDelay)
import Control.Concurrent.STM
import Control.Exception (IOException, SomeException, catch, finally, mask, mask_, onException, throwIO, try)
import Control.Monad (filterM, unless, void, when)
import Data.Bits (shiftL)
import Data.ByteString.Char8 (ByteString)
import qualified Data.ByteString.Char8 as Bytes
import Data.Char (isSpace)
import Data.List (dropWhileEnd, intercalate, nub)
import GHC.Foreign (peekCStringLen)
import GHC.IO.Encoding (getFileSystemEncoding)
import GHC.IO.Encoding.Failure (CodingFailureMode (TransliterateCodingFailure))
import GHC.IO.Encoding.UTF8 (mkUTF8)
import Stmdesk.Answer (DeskError (..))
import System.Directory (canonicalizePath, doesDirectoryExist, doesFileExist, findExecutable, getCurrentDirectory, makeAbsolute)
import System.Environment (getExecutablePath, lookupEnv)
import System.Exit (ExitCode (ExitSuccess))
import System.FilePath (takeDirectory, takeFileName, (</>))
import System.IO (Handle, hClose, hFlush)
import System.IO.Error (doesNotExistErrorType, ioeSetErrorString, mkIOError)
import System.Posix.Resource (Resource (ResourceStackSize), ResourceLimit (ResourceLimit), getResourceLimit, softLimit)
import System.Posix.Signals (sigKILL, signalProcessGroup)
import System.Process
import System.Process.Internals (ProcessHandle__ (OpenHandle), withProcessHandle)
import System.Timeout (timeout)

-- | The path of the program: the one that is given; or else what the environment variable @STMDESK@ names; or else the one that the
-- repository runs in which the working directory or this executable is (@.\/stmdesk --which@: the program that was built there or that of
-- its release\/, provided that it was made from the sources that are there); or else the first @stmdesk@ on the @PATH@. Throws 'NoProgram'
-- if there is none, and if the one that is given, named or on the @PATH@ is the script of a repository that has none.
--
-- >>> findProgram Nothing >>= \path -> runOnce path ["--help"] (Bytes.pack "") >>= \(status, _, _) -> print status
-- ExitSuccess
findProgram :: Maybe FilePath -> IO FilePath
findProgram given = do
  named <- lookupEnv "STMDESK"
  case (given, named) of
    (Just path, _) -> path <$ (executableOf path >>= mapM_ checkProgram)
    (_, Just path@(_ : _)) -> do
      found <- executableOf path
      case found of
        Just it -> it <$ checkProgram it
        Nothing -> throwIO (NoProgram ("STMDESK names " ++ show path ++ ", which isn't an executable file"))
    _ -> do
      here <- getCurrentDirectory
      this <- takeDirectory <$> getExecutablePath
      repositories <- filterM isRepository (nub (above here ++ above this))
      inRepository <- firstOf repositories
      onPath <- findExecutable "stmdesk"
      case (inRepository, onPath) of
        (Right it, _) -> pure it
        (_, Just it) -> it <$ checkProgram it
        (Left none, _) -> throwIO . NoProgram . intercalate ", " $
          ["no path is given", "STMDESK isn't set"]
            ++ (if null none then ["no folder above " ++ here ++ " or " ++ this ++ " is stmdesk's repository"] else none)
            ++ ["and no folder of the PATH has stmdesk"]
  where
    above folder = folder : if takeDirectory folder == folder then [] else above (takeDirectory folder)
    firstOf [] = pure (Left [])
    firstOf (it : rest) = programOf it >>= either (\none -> first' (none :) <$> firstOf rest) (pure . Right)
    first' change = either (Left . change) Right

-- | The executable file that a shell runs by this name: of the @PATH@, or this very one if the name has a slash.
executableOf :: FilePath -> IO (Maybe FilePath)
executableOf path = if '/' `elem` path then makeAbsolute path >>= findExecutable else findExecutable path

-- | Whether the folder is stmdesk's repository, whose script @stmdesk@ runs the program.
isRepository :: FilePath -> IO Bool
isRepository folder = (&&) <$> doesFileExist (folder </> "stmdesk") <*> doesDirectoryExist (folder </> "crates" </> "stmdesk")

-- | The program that a repository runs, or why there is none: then its script would build the program for an hour, or run all commands
-- together at the end of its input, so the first call would wait for ever. Where the limit of the stack is lower than the program needs,
-- it is the script, which raises it.
programOf :: FilePath -> IO (Either String FilePath)
programOf repository = do
  let script = repository </> "stmdesk"
  asked <- try (runOnce script ["--which"] Bytes.empty)
  stack <- softLimit <$> getResourceLimit ResourceStackSize
  let none said = Left ("the repository " ++ repository ++ " has none" ++ if null said then "" else " (" ++ said ++ ")")
  case asked of
    Right (ExitSuccess, text, _) | Just path <- Bytes.stripSuffix (Bytes.pack "\n") text -> Right <$> case stack of
      ResourceLimit it | it < 2048 * 1024 -> pure script
      _ -> getFileSystemEncoding >>= Bytes.useAsCStringLen path . peekCStringLen
    Right (_, _, said) -> pure (none said)
    Left it -> pure (none (show (it :: IOException)))

-- | Throws 'NoProgram' if the program is the script of a repository that has no program to run.
checkProgram :: FilePath -> IO ()
checkProgram path = do
  whole <- canonicalizePath path
  isScript <- isRepository (takeDirectory whole)
  when (isScript && takeFileName whole == "stmdesk") $
    programOf (takeDirectory whole) >>= either (throwIO . NoProgram) (const (pure ()))

-- | A console of stmdesk that runs: what it is given, and what it prints. 'startPipe' runs it as a process, over pipes.
data Transport = Transport
  { give :: ByteString -> IO ()  -- ^ Gives it lines, all of them whole.
  , printed :: STM (Maybe ByteString)  -- ^ The next part of what it prints; 'Nothing' from the end on.
  , endInput :: IO ()  -- ^ Lets it answer what it was given, and end.
  , kill :: IO ()  -- ^ Ends it at once.
  , awaitEnd :: Int -> IO (ExitCode, String)
    -- ^ How it ended: its status, and the end of what it said on standard error. It is killed after this many microseconds.
  }

-- | Runs the program with these words, in a process group of its own: so Ctrl-C at a terminal comes to the caller alone. Throws an
-- 'IOException' if it can't be started.
startPipe :: FilePath -> [String] -> IO Transport
startPipe path options = mask_ $ do
  (input, output, errors, process) <- started
  parts <- newTBQueueIO 64
  said <- newTVarIO Bytes.empty
  (reader, isRead) <- inThread (takeAll output (writeTBQueue parts))
  (listener, isHeard) <- inThread (takeAll errors (\it -> modifyTVar' said (endOf . (<> it))))
  ending <- newMVar Nothing
  let killIt = do
        withProcessHandle process $ \handle -> case handle of
          OpenHandle number -> quietly (signalProcessGroup sigKILL number)
          _ -> pure ()
        atomically (writeTVar isRead True)  -- whoever else may hold the pipe
      end patience = do
        status <- timeout patience (untilEnd process) `onException` (killIt >> waitForProcess process)
        code <- maybe (killIt >> waitForProcess process) pure status
        void (timeout 1000000 (atomically (readTVar isHeard >>= check)))
        mapM_ killThread [reader, listener]
        mapM_ (quietly . hClose) [input, output, errors]
        (,) code . trimmed <$> (readTVarIO said >>= (`Bytes.useAsCStringLen` peekCStringLen (mkUTF8 TransliterateCodingFailure)))
  pure
    Transport
      { give = \lines' -> Bytes.hPut input lines' >> hFlush input
      , printed = (Just <$> readTBQueue parts) `orElse` (Nothing <$ (readTVar isRead >>= check))
      , endInput = quietly (hClose input)
      , kill = killIt
      , awaitEnd = \patience -> modifyMVar ending $ \known -> do
          it <- maybe (end patience) pure known
          pure (Just it, it)
      }
  where
    started = do
      made <- createProcess (proc path options) {std_in = CreatePipe, std_out = CreatePipe, std_err = CreatePipe, create_group = True}
        `catch` \it -> executableOf path >>= maybe (throwIO noFile) (const (throwIO (it :: IOException)))
      case made of
        (Just input, Just output, Just errors, process) -> pure (input, output, errors, process)
        _ -> error "a pipe is missing"
    noFile = mkIOError doesNotExistErrorType "stmdesk's program" Nothing (Just path) `ioeSetErrorString` "this is no executable file"
    endOf it = Bytes.drop (Bytes.length it - 1 `shiftL` 16) it
    trimmed = dropWhileEnd isSpace . dropWhile isSpace
    quietly act = void (try act :: IO (Either IOException ()))

-- | Does this in a thread, and says when it is over.
inThread :: IO () -> IO (ThreadId, TVar Bool)
inThread act = do
  isOver <- newTVarIO False
  thread <- forkIOWithUnmask (\unmask -> quiet (unmask act) `finally` atomically (writeTVar isOver True))
  pure (thread, isOver)
  where
    quiet it = void (try it :: IO (Either SomeException ()))

-- | Takes all that comes from a handle.
takeAll :: Handle -> (ByteString -> STM ()) -> IO ()
takeAll handle take' = do
  part <- Bytes.hGetSome handle (1 `shiftL` 16)
  unless (Bytes.null part) (atomically (take' part) >> takeAll handle take')

-- | Waits for the end of a process, without a call that keeps other threads of a program from running that has one processor only.
untilEnd :: ProcessHandle -> IO ExitCode
untilEnd process = go 100
  where
    go pause = getProcessExitCode process >>= maybe (threadDelay pause >> go (min 20000 (2 * pause))) pure

-- | Runs the program on this input to its end: its status, what it printed, and what it said on standard error.
runOnce :: FilePath -> [String] -> ByteString -> IO (ExitCode, ByteString, String)
runOnce path options input = mask $ \restore -> do
  program <- startPipe path options
  let parts = atomically (printed program) >>= maybe (pure []) (\it -> (it :) <$> parts)
  text <- restore (run program parts) `onException` (kill program >> awaitEnd program 0)
  (status, said) <- awaitEnd program 5000000
  pure (status, text, said)
  where
    run program parts = do
      given <- try (give program input)
      endInput program
      either (\it -> const (pure ()) (it :: IOException)) pure given  -- if it reads no more, its status says why
      Bytes.concat <$> parts
