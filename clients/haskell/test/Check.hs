-- | Tests: each is an action that throws if it fails.
module Check (Test, test, is, are, throws, runTests) where

import Control.Exception
import Control.Monad (unless, when)
import Data.IORef
import Data.List (isInfixOf)
import System.Exit (exitFailure)
import System.IO (hFlush, stdout)
import System.Timeout (timeout)

data Test = Test String (IO ())

test :: String -> IO () -> Test
test = Test

newtype Failed = Failed String
  deriving (Show)

instance Exception Failed

is :: (Eq a, Show a) => a -> a -> IO ()
is found wanted = unless (found == wanted) (throwIO (Failed ("found  " ++ show found ++ "\n    wanted " ++ show wanted)))

are :: (Eq a, Show a) => [a] -> [a] -> IO ()
are = is

-- | The exception of this type that an action throws.
throws :: Exception e => IO a -> IO e
throws act = try act >>= either pure (const (throwIO (Failed "nothing was thrown")))

-- | Runs those that have a part of a name in theirs, each for at most so many seconds. The last line is @N passed, M failed@.
runTests :: Int -> String -> [Test] -> IO ()
runTests seconds part tests = do
  failed <- newIORef (0 :: Int)
  let chosen = [it | it@(Test name _) <- tests, part `isInfixOf` name]
      one (Test name act) = do
        ended <- try (timeout (seconds * 1000000) act)
        case ended of
          Right (Just ()) -> pure ()
          Right Nothing -> wrong name ("no end after " ++ show seconds ++ " seconds")
          Left it -> wrong name (case fromException it of { Just (Failed why') -> why'; Nothing -> displayException (it :: SomeException) })
      wrong name why' = modifyIORef' failed (+ 1) >> putStrLn ("failed: " ++ name ++ "\n    " ++ why') >> hFlush stdout
  mapM_ one chosen
  bad <- readIORef failed
  putStrLn (show (length chosen - bad) ++ " passed, " ++ show bad ++ " failed")
  when (bad > 0 || null chosen) exitFailure
